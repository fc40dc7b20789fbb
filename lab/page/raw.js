"use strict";
/** The programs' own words, report by report; and what `lint` says below the scenario. */
const Raw = (() => {
  const place = Dom.at("raw-texts");
  const lint = Dom.at("lint");
  const SHOWN = ["summary", "findings", "shares", "latency", "lint", "promise"];
  const MOST = 200000;

  function part(name, answer) {
    const ended = answer.ended ? ` (${answer.ended})` : "";
    const text = answer.text.length > MOST ? `${answer.text.slice(0, MOST)}\n.. cut here` : answer.text;
    return [Dom.make("h3", {}, `${name}, status ${answer.status}${ended}`), Dom.make("pre", {}, text)];
  }

  function fill() {
    const run = Runs.shown();
    if (!run || !place.parentElement.open) return;
    Dom.fill(place, SHOWN.filter((it) => run.answers.has(it)).map((it) => part(it, run.answers.get(it))));
  }

  function linted(run, answer) {
    const lines = answer.text.split("\n").filter((it) => it && it !== "lint none" && !it.startsWith("aps "));
    Dom.show(lint, lines.length > 0);
    Dom.fill(lint, lines.map((it) => Dom.make("p", {}, Dom.make("code", {}, it))));
  }

  Parts.add(Dom.at("raw"), ["summary"]);
  place.parentElement.addEventListener("toggle", fill);
  Bus.on("done", fill);
  Bus.on("lint", linted);
})();
