"use strict";
/**
 * Before anything is proved: the quick run takes about a minute a report, so nothing runs by itself. A button makes the
 * report in sight, one at a time.
 */
const Quick = (() => {
  const button = Dom.at("run");
  let since = null;
  let running = "";

  function seen(id) {
    const box = Dom.at(id).getBoundingClientRect();
    return Math.max(0, Math.min(box.bottom, innerHeight) - Math.max(box.top, 46));
  }

  const hasSummary = () => Runs.newest() && Runs.newest().text === Editor.text() && Runs.newest().summary;

  /** The report of the part that most of the window shows. The cards need the summary first. */
  function inSight() {
    const parts = [["overview", hasSummary() ? "shares" : "summary"], ["pictures", Picture.tab()],
      ["details", "latency"]];
    return parts.reduce((best, part) => (seen(part[0]) > seen(best[0]) ? part : best))[1];
  }

  function label() {
    if (!Runs.isQuick()) return;
    button.textContent = running ? `Running ${running}` : `Run: ${inSight()}`;
    button.disabled = running !== "";
  }

  function run() {
    running = inSight();
    since = performance.now();
    label();
    if (Picture.TABS.includes(running)) drawPicture();
    else Runs.more(Editor.text(), running);
  }

  async function drawPicture() {
    if (!Runs.newest() || Runs.newest().text !== Editor.text()) Runs.start(Editor.text(), []);
    await Picture.ask(Runs.newest());
    done();
  }

  function done() {
    running = "";
    since = null;
    label();
  }

  function count() {
    if (since !== null) Bar.say(`${running}, unproved: ${Math.floor((performance.now() - since) / 1000)} s`);
  }

  /** What there is belongs to an older text now. */
  function edited() {
    Parts.wait();
    Parts.fade();
    label();
  }

  button.addEventListener("click", run);
  addEventListener("scroll", label, { passive: true });
  setInterval(count, 1000);
  for (const event of ["done", "refused", "stopped", "failed"]) Bus.on(event, () => !Picture.TABS.includes(running)
    && done());
  Bus.on("programs", () => {
    label();
    if (Runs.isQuick() && !Runs.newest()) Bar.say("Nothing has run yet. Run makes the report in sight.");
  });
  Bus.on("tab", label);

  return { edited };
})();
