"use strict";
/** Starts the page: loads the first scenario, and runs each edit a moment after its last key. */
const Lab = (() => {
  const EDIT_WAIT = 250;
  const LOOK_AGAIN = 15000;
  const select = Dom.at("examples");
  let timer = null;
  let examples = [];
  let name = "";

  function setName(value) {
    name = value;
    Dom.at("name").textContent = Backend.isSaved ? "as it was saved" : value;
  }

  /** Another scenario: nothing of the one before belongs to it. */
  function load(title, text) {
    setName(title);
    Stretch.reset();
    Runs.forgetLimit();
    Editor.load(text);
    run(performance.now());
  }

  function run(edited) {
    clearTimeout(timer);
    if (Runs.isQuick()) return Quick.edited();
    return ShortForm.expanded(Editor.text(), (text, source) => Runs.start(text, undefined, edited, source));
  }

  /** An edit is run a moment after its last key; the quick run only when somebody asks. */
  function edited(text, wait) {
    clearTimeout(timer);
    const when = performance.now();
    timer = setTimeout(() => run(when), wait === null ? EDIT_WAIT : wait);
  }

  function listExamples(first) {
    const all = first ? [first, ...examples] : examples;
    Dom.fill(select, all.map((it, i) => Dom.make("option", { value: i, title: it.about }, it.name)));
    select.addEventListener("change", () => load(all[select.value].name, all[select.value].text));
    return all;
  }

  /** Whether the programs are others by now, say since they were proved; while somebody looks at the page. */
  function lookAgain() {
    if (document.visibilityState !== "visible") return;
    Runs.lookAtPrograms().catch((error) => Bus.tell("failed", error));
  }

  async function start() {
    await Runs.lookAtPrograms();
    if (Backend.isSaved) {
      document.body.classList.add("saved");
      Dom.at("text").readOnly = true;
      return load("", Backend.text);
    }
    const found = await Backend.examples();
    examples = found.examples;
    const all = listExamples(found.first);
    if (all.length) load(all[0].name, all[0].text);
    setInterval(lookAgain, LOOK_AGAIN);
    return null;
  }

  Bus.on("edited", edited);

  return { start, load, name: () => name };
})();

Lab.start().catch((error) => Bus.tell("failed", error));
