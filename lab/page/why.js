"use strict";
/** Why a thread runs or doesn't, at a moment: the answer of `explain`, and the story of the wait where it is known. */
const Why = (() => {
  const panel = Dom.at("why");
  const asker = Backend.asker();
  const storyAsker = Backend.asker();
  let asked = null;
  let before = [];
  let opener = null;

  const kinds = ["wake", "preempted", "cycle", "call", "response"];

  function head(at) {
    return Dom.make("header", {}, Dom.make("h2", {}, "Why?"),
      Dom.make("b", { class: "moment" }, `at ${Numbers.ms(at)}`),
      Dom.make("span", { class: "gap" }),
      before.length ? Dom.make("button", { type: "button", id: "why-back", click: goBack }, "Back") : null,
      Dom.make("button", { type: "button", id: "why-close", "aria-label": "close", click: close }, "✕"));
  }

  function open() {
    if (panel.hidden) {
      opener = document.activeElement;
      document.body.style.setProperty("--wide", `${Dom.at("picture").clientWidth}px`);
    }
    Dom.show(panel, true);
    document.body.classList.add("asking");
  }

  function close() {
    Dom.show(panel, false);
    document.body.classList.remove("asking");
    asker.stop();
    asked = null;
    before = [];
    Cross.set("", 0);
    if (opener && opener.isConnected) opener.focus({ preventScroll: true });
  }

  function goBack() {
    asked = before.pop();
    question();
  }

  /**
   * Asks about a thread at a moment. `zoom`: the pictures go there too. `kind`: the kind of wait that it is
   * the worst of. `byKeys`: the keyboard goes on in the answer, and Esc returns it.
   */
  function ask(thread, at, { zoom = false, kind = "", byKeys = false }) {
    if (asked) before.push(asked);
    asked = { thread, at, kind, byKeys };
    open();
    if (zoom) Stretch.show(at);
    question();
  }

  const sameMoment = (thread) => ask(thread, asked.at, {});

  function show(answer) {
    const { thread, at } = asked;
    if (!Runs.isRan(answer)) return refused(answer);
    const told = Texts.rows(answer.text).find((words) => words[0] === "at");
    const moment = told ? Number(told[1]) : at;
    Dom.fill(panel, head(moment), Explained.blocks(answer.text).map((block, i) =>
      Explained.part(block, moment, i === 0, sameMoment)),
      Dom.make("p", { class: "row" },
        Dom.make("button", { type: "button", click: () => Stretch.show(at) }, "Zoom here"),
        Dom.make("button", { type: "button", click: () => Cycles.choose(thread) }, `Cycles of ${thread}`)),
      Dom.make("div", { id: "story" }),
      Dom.make("details", {}, Dom.make("summary", {}, "The program's own words"),
        Dom.make("pre", { id: "why-text" }, answer.text)));
    Cross.set(thread, moment);
    if (asked.byKeys) panel.querySelector(".explained .link, #why-close").focus();
    tellStory();
    return null;
  }

  function refused(answer) {
    const why = answer.ended === "late" ? "The answer took too long, and was stopped." : answer.text.trim()
      || answer.hint;
    Dom.fill(panel, head(asked.at), Dom.make("p", { class: "said" }, `${asked.thread}: ${why}`));
  }

  /** In a saved page only some moments are kept. */
  function missing() {
    const { thread, at } = asked;
    const kept = Backend.moments().map((it) => it.split(" ")).filter(([name]) => name === thread).map(([, moment]) =>
      Number(moment));
    const nearest = kept.sort((a, b) => Math.abs(a - at) - Math.abs(b - at))[0];
    Dom.fill(panel, head(at),
      Dom.make("p", { class: "said" }, "This page doesn't have the answer for this moment. This command gives it:"),
      Dom.make("pre", {}, `./apsview explain --thread ${thread} --at ${at} < SCENARIO.toml`),
      nearest === undefined ? null : Dom.make("p", {}, "The nearest moment that it has: ",
        Dom.link(Numbers.ms(nearest), () => ask(thread, nearest, { zoom: true }))));
    Cross.set(thread, at);
  }

  async function question() {
    const run = Runs.shown();
    const mine = asked;
    if (!run || !mine) return;
    let isAnswered = false;
    Dom.fill(panel, head(mine.at),
      Dom.make("p", { class: "said" }, Runs.isQuick() ? "Asking; a quick run takes about a minute .." : "Asking .."));
    const done = await asker.ask(run.text, ["explain"], { ...Runs.options(), thread: mine.thread, at: mine.at },
      (answer) => {
      isAnswered = true;
      show(answer);
    });
    if (done && !isAnswered && Backend.isSaved) missing();
  }

  function tellStory() {
    const { thread, kind } = asked;
    if (!kinds.includes(kind) || !Runs.knows("story") || Runs.isQuick()) return;
    storyAsker.ask(Runs.shown().text, ["story"], { ...Runs.options(), thread, worst: kind }, (answer) => {
      if (Runs.isRan(answer)) Dom.fill(Dom.at("story"), storyOf(answer.text, kind));
    });
  }

  /** The causes of a wait by time, longest first, as the program prints them. */
  function storyOf(text, kind) {
    const totals = Texts.rows(text).filter((words) => words[0] === "total");
    if (!totals.length) return null;
    const rows = totals.map((words) => Dom.make("tr", {}, Dom.make("td", {}, Numbers.ms(Number(words[1]))),
      Dom.make("td", {}, words.slice(2).join(" "))));
    return [Dom.make("h3", {}, `The story of the longest ${kind}`),
      Dom.make("table", { class: "story" }, Dom.make("tbody", {}, rows)),
      Dom.make("details", {}, Dom.make("summary", {}, "all of it"), Dom.make("pre", {}, text))];
  }

  /** A new run of the text answers the same question anew. */
  function again() {
    if (asked && !Runs.isQuick()) question();
  }

  Parts.add(panel, ["accepted"]);
  Bus.on("accepted", again);
  Bus.on("pictured", () => asked && Cross.set(asked.thread, asked.at));
  panel.addEventListener("keydown", (event) => event.key === "Escape" && close());

  return { ask, close, isOpen: () => !panel.hidden };
})();
