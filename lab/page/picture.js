"use strict";
/** The picture in sight: one of three, of the stretch that is chosen; the pinned run's above it where that is wanted. */
const Picture = (() => {
  const TABS = ["threads", "timeline", "usage"];
  const place = Dom.at("picture");
  const earlier = Dom.at("earlier");
  const hint = Dom.at("picture-hint");
  const asker = Backend.asker();
  const earlierAsker = Backend.asker();
  const SAY_AFTER = 2000;
  const WAIT_FOR_TEXTS = 150;
  const FIRST_WINDOW_ABOVE = 300000;
  let tab = "threads";
  let current = null;
  let pinned = null;
  let waiting = null;
  let wholeIsWanted = false;

  const HINTS = {
    threads: "Click a bar to ask why. Drag to zoom; Ctrl+wheel zooms, Shift+wheel moves.",
    timeline: "Click a bar to ask why. Drag to zoom; Ctrl+wheel zooms, Shift+wheel moves.",
    usage: "Drag to zoom.",
  };

  function markTabs() {
    for (const name of TABS) {
      const button = Dom.at(`tab-${name}`);
      button.setAttribute("aria-selected", String(name === tab));
      button.tabIndex = name === tab ? 0 : -1;
    }
  }

  function draw(answer, into) {
    const svg = Svg.adopt(answer.text);
    if (!svg) {
      Dom.fill(into, Dom.make("p", { class: "said" }, "The program's answer is no picture."));
      return null;
    }
    svg.removeAttribute("width");
    svg.removeAttribute("height");
    const marks = Marks.read(svg);
    Dom.fill(into, Dom.make("div", { class: "layer" }, namesOf(svg, marks), svg));
    return { svg, marks };
  }

  /** The names of the lanes once more, to stay in sight where the picture is moved sideways below them. */
  function namesOf(svg, marks) {
    const lanes = marks.lanes.filter((lane) => lane.kind !== "partition");
    if (!lanes.length) return null;
    const labels = lanes.map((lane) =>
      Dom.draw("text", { x: 1340, y: (lane.top + lane.bottom) / 2 + 40, "font-size": 110, "text-anchor": "end" },
        lane.name));
    const ground = Dom.draw("rect",
      { width: 1390, y: lanes[0].top - 50, height: lanes.at(-1).bottom - lanes[0].top + 100 });
    return Dom.make("div", { class: "names", "aria-hidden": "true" },
      Dom.draw("svg", { viewBox: `0 0 1390 ${svg.getAttribute("viewBox").split(" ")[3]}` }, ground, labels));
  }

  function show(run, answer) {
    current = draw(answer, place);
    if (!current) return;
    Paints.take(current.svg, current.marks.legend);
    if (current.marks.stretch && Stretch.isWhole()) Stretch.reach(current.marks.stretch.to);
    const more = current.marks.columns ? "Each column is many bars; zoom to see them. " : "";
    const note = Backend.isSaved && Backend.stopped ? ` This page has no pictures from ${Backend.stopped} on.` : "";
    hint.textContent = more + HINTS[tab] + note;
    if (!run.isDrawn) Runs.painted(run, "picture");
    run.isDrawn = true;
    Bus.tell("picture", run, answer);
  }

  /** Findings are read first: a picture waits a moment until they are painted, since it takes longer to paint. */
  function showBehindTexts(run, answer) {
    if (run.isRead || Backend.isSaved) return show(run, answer);
    waiting = () => run === Runs.newest() && show(run, answer);
    return setTimeout(showWaiting, WAIT_FOR_TEXTS);
  }

  function showWaiting() {
    const action = waiting;
    waiting = null;
    if (action) action();
  }

  function textsArePainted(run, part) {
    if (part === "picture" || run !== Runs.newest()) return;
    run.isRead = true;
    showWaiting();
  }

  function said(...what) {
    current = null;
    Dom.fill(place, Dom.make("p", { class: "said" }, ...what));
    Bus.tell("picture");
  }

  const firstWindow = () => {
    const run = Runs.newest();
    const window = run && run.summary ? run.summary.window : 100;
    Stretch.set({ from: 0, to: window });
  };

  function take(run, answer) {
    if (answer.report !== tab) return;
    if (Runs.isRan(answer)) {
      Runs.take(run, answer);
      if (run === Runs.newest()) showBehindTexts(run, answer);
    } else if (Runs.isStopped(answer)) {
      const why = { late: "took too long", long: "was too large" }[answer.ended] || answer.hint || "has no answer";
      said(`This picture ${why}. `, Dom.link("Draw the first window alone", firstWindow));
    } else {
      Runs.take(run, answer);
    }
  }

  /** Of a run of very many entries only the first window is drawn, until somebody asks for more. */
  function isTooMuch(run) {
    const known = run.summary || (Runs.shown() && Runs.shown().summary);
    return known && known.entries > FIRST_WINDOW_ABOVE && Stretch.isWhole() && !wholeIsWanted
      && known.ticks > known.window;
  }

  async function ask(run) {
    if (!Runs.knows(tab)) return said(`The program has no ${tab}.`);
    const reduced = isTooMuch(run);
    const stretch = reduced ? { from: 0, to: (run.summary || Runs.shown().summary).window } : Stretch.options();
    const timer = setTimeout(() => said("Still drawing .. ", Dom.link("Draw the first window alone", firstWindow)),
      SAY_AFTER);
    try {
      let isAnswered = false;
      const isDone = await asker.ask(run.text, [tab], { ...Runs.options(), ...stretch }, (answer) => {
        isAnswered = true;
        take(run, answer);
      });
      if (isDone && !isAnswered) said("There is no such picture here.");
      if (reduced) offerWhole(run);
    } catch (error) {
      said(`The lab doesn't answer: ${error.message}`);
    } finally {
      clearTimeout(timer);
    }
    return null;
  }

  function offerWhole(run) {
    const entries = Numbers.count((run.summary || Runs.shown().summary).entries);
    Dom.fill(hint, `The first window of a run of ${entries} entries. `, Dom.link("Draw the whole run", () => {
      wholeIsWanted = true;
      again();
    }));
  }

  async function askEarlier() {
    const isWanted = pinned !== null;
    Dom.show(earlier, isWanted);
    Dom.show(Dom.at("earlier-title"), isWanted);
    Dom.show(Dom.at("now-title"), isWanted);
    if (!isWanted) return;
    Dom.at("earlier-title").textContent = `A: ${pinned.name}`;
    Dom.at("now-title").textContent = "now";
    const { from, to } = Stretch.now();
    await earlierAsker.ask(pinned.text, [tab], { ...Runs.options(), from, to }, (answer) => Runs.isRan(answer) && draw(answer, earlier));
  }

  function again() {
    const run = Runs.newest();
    if (run) start(run);
    askEarlier();
  }

  function choose(name) {
    if (name === tab) return;
    tab = name;
    markTabs();
    Bus.tell("tab");
    again();
  }

  function pin(run) {
    pinned = run;
    askEarlier();
  }

  /** With the quick run a picture takes a minute, so somebody has to ask for it. */
  function start(run) {
    if (Runs.isQuick()) said("This picture isn't drawn yet.");
    else ask(run);
  }

  function stop() {
    asker.stop();
    waiting = null;
  }

  function tabKeys(event) {
    const step = { ArrowLeft: -1, ArrowRight: 1 }[event.key];
    if (!step) return;
    event.preventDefault();
    event.stopPropagation();
    choose(TABS[(TABS.indexOf(tab) + step + TABS.length) % TABS.length]);
    Dom.at(`tab-${tab}`).focus();
  }

  for (const name of TABS) Dom.at(`tab-${name}`).addEventListener("click", () => choose(name));
  Dom.at("tabs").addEventListener("keydown", tabKeys);
  Parts.add(place, ["picture"]);
  Bus.on("start", (run) => {
    waiting = null;
    wholeIsWanted = false;
    start(run);
  });
  Bus.on("stretch", again);
  Bus.on("painted", textsArePainted);
  Bus.on("refused", stop);
  Bus.on("stop", stop);
  markTabs();

  return { choose, pin, ask, tab: () => tab, current: () => current, TABS };
})();
