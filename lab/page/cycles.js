"use strict";
/** The cycles of one thread, how long each took, and which are late for a deadline; its jobs where the program knows them. */
const Cycles = (() => {
  const place = Dom.at("cycles-part");
  const asker = Backend.asker();
  const BINS = 28;
  const MOST_LATE = 12;
  let thread = null;
  let deadline = "";
  let cycles = [];
  let jobs = null;

  function choose(name) {
    thread = name;
    cycles = [];
    jobs = null;
    Bus.tell("cycles-of");
    ask();
    place.scrollIntoView({ block: "nearest" });
  }

  function ask() {
    const run = Runs.shown();
    if (!thread || !run) return empty();
    const limitNs = Numbers.nsOf(deadline);
    const options = { ...Runs.options(), only: thread, thread, ...(limitNs ? { deadline: limitNs } : {}) };
    const wants = (Runs.isQuick() ? ["cycles"] : ["cycles", "responses"]).filter(Runs.knows);
    return asker.ask(run.text, wants, options, (answer) => {
      if (!Runs.isRan(answer)) return;
      if (answer.report === "cycles") cycles = Texts.cycles(answer.text);
      else jobs = Texts.responses(answer.text);
      fill();
      Bus.tell("cycles", run, answer);
    });
  }

  function empty() {
    Bus.tell("no-cycles");
    Dom.fill(place, Dom.make("p", { class: "hint" }, "Choose a thread to see how long its cycles took."));
  }

  function field() {
    const input = Dom.make("input",
      { id: "deadline", inputmode: "decimal", size: 8, value: deadline, input: (event) => {
      deadline = event.target.value;
      fillResult();
    }, change: () => Runs.knows("responses") && ask() });
    return Dom.make("label", { class: "row" }, "Deadline ", input, " ms");
  }

  const late = () => {
    const most = Numbers.nsOf(deadline);
    return most === null ? null : cycles.filter((it) => it.length > most);
  };

  function fill() {
    const isTyping = document.activeElement && document.activeElement.id === "deadline";
    const longest = cycles.reduce((most, it) => Math.max(most, it.length), 0);
    const about = cycles.length ? `${Numbers.several(cycles.length, "cycle")}, longest ${Numbers.ms(longest)}`
      : "no cycles";
    if (!isTyping || !Dom.at("cycles-result")) {
      Dom.fill(place, Dom.make("h2", {}, `Cycles of ${thread} `, Dom.make("small", { id: "cycles-about" }, about)),
        field(),
        Dom.make("div", { id: "cycles-result" }));
    } else Dom.at("cycles-about").textContent = about;
    fillResult();
  }

  function verdict() {
    const found = late();
    if (!found) return null;
    const isGood = found.length === 0;
    return Dom.make("p", { id: "late", class: isGood ? "good" : "bad" },
      Dom.make("span", { class: `sign ${isGood ? "good" : "bad"}` }, isGood ? "✓" : "!"),
      ` ${Numbers.count(found.length)} of ${Numbers.count(cycles.length)} late`);
  }

  function links() {
    const found = late();
    if (!found || !found.length) return null;
    return Dom.make("p", {}, "Late: ", found.slice(0, MOST_LATE).map((it, i) =>
      [i ? ", " : "", Dom.link(`from ${Numbers.ms(it.begin)}`, () =>
        Why.ask(thread, Numbers.inside(it.begin, it.length), { zoom: true }))]),
    found.length > MOST_LATE ? `, and ${found.length - MOST_LATE} more` : "");
  }

  /** Bars over the lengths of cycles, those beyond the deadline apart. */
  function histogram() {
    const longest = cycles.reduce((most, it) => Math.max(most, it.length), 1);
    const most = Numbers.nsOf(deadline);
    const bins = Array.from({ length: BINS }, () => ({ good: 0, late: 0 }));
    for (const it of cycles) {
      const bin = bins[Math.min(BINS - 1, Math.floor((it.length * BINS) / (longest + 1)))];
      bin[most !== null && it.length > most ? "late" : "good"] += 1;
    }
    const high = Math.max(...bins.map((it) => it.good + it.late), 1);
    const width = 400 / BINS;
    const bars = bins.flatMap((it, i) => barsOf(it, i * width, width - 1, 110 / high));
    const line = most !== null && most <= longest
      ? Dom.draw("path", { class: "budget", d: `M${(most * 400) / longest} 0V124` }) : null;
    return Dom.draw("svg", { class: "histogram", viewBox: "-20 -4 440 150", role: "img",
      "aria-label": "lengths of cycles" },
      bars, line, Dom.draw("path", { class: "axis", d: "M0 124H400" }),
      Dom.draw("text", { x: 0, y: 140 }, "0"),
        Dom.draw("text", { x: 400, y: 140, "text-anchor": "end" }, Numbers.ms(longest)));
  }

  function barsOf(bin, x, width, scale) {
    const total = bin.good + bin.late;
    if (!total) return [];
    const good = Dom.draw("rect", { class: "good", x, width, y: 124 - bin.good * scale, height: bin.good * scale });
    const bad = Dom.draw("rect", { class: "bad", x, width, y: 124 - total * scale, height: bin.late * scale });
    return [good, bad, Dom.draw("text", { x: x + width / 2, y: 121 - total * scale, "text-anchor": "middle" },
      Numbers.count(total))];
  }

  function jobsPart() {
    if (!jobs || !jobs.jobs) return null;
    const lateJobs = jobs.late === undefined ? "" : `; ${Numbers.count(jobs.late)} late`;
    return Dom.make("p", { id: "jobs" },
      `${Numbers.several(jobs.jobs, "job")}: response ${Numbers.plainMs(jobs.best)} to `,
      Dom.link(Numbers.ms(jobs.worst), () =>
        Why.ask(thread, Numbers.inside(jobs.at, jobs.worst), { zoom: true, kind: "response" })), lateJobs);
  }

  function fillResult() {
    const result = Dom.at("cycles-result");
    if (result) Dom.fill(result, verdict(), cycles.length ? histogram() : null, links(), jobsPart());
  }

  Parts.add(place, ["cycles", "no-cycles"]);
  Bus.on("accepted", () => (thread && !Runs.isQuick() ? ask() : empty()));
  empty();

  return { choose, thread: () => thread };
})();
