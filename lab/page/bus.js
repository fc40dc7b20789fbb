"use strict";
/** Who wants to hear of what: parts of the page don't know each other, they hear of runs and reports. */
const Bus = (() => {
  const listeners = new Map();

  function on(name, listener) {
    listeners.set(name, [...(listeners.get(name) || []), listener]);
  }

  function tell(name, ...what) {
    for (const listener of listeners.get(name) || []) listener(...what);
  }

  return { on, tell };
})();

/** Parts that show what belongs to some text. What belongs to an older text is pale, until something newer is there. */
const Parts = (() => {
  const parts = [];

  /** A part is new again with the first of its reports, whether it was made or stopped. */
  function add(element, reports) {
    const part = { element, waits: false };
    parts.push(part);
    for (const report of reports) Bus.on(report, () => freshen(part));
    Bus.on("stopped", (run, answer) => reports.includes(answer.report) && freshen(part));
  }

  function freshen(part) {
    part.waits = false;
    part.element.classList.remove("old");
  }

  function wait() {
    for (const part of parts) part.waits = true;
  }

  function fade() {
    for (const part of parts) part.element.classList.toggle("old", part.waits);
  }

  return { add, wait, fade };
})();
