"use strict";
/** The scenario's text: its lines with numbers, the mark at a refused line, and an undo that knows the sliders' changes too. */
const Editor = (() => {
  const LINE = 17;
  const PAD = 7;
  const MOST_STEPS = 200;

  const area = Dom.at("text");
  const lines = Dom.at("lines");
  const mark = Dom.at("mark");
  const box = Dom.at("refusal");
  let markedLine = 0;
  let read = null;
  let steps = [];
  let undone = [];

  const text = () => area.value;

  function places() {
    if (!read || read.text !== area.value) read = { text: area.value, ...Toml.read(area.value) };
    return read;
  }

  function number() {
    const count = area.value.split("\n").length;
    if (Number(lines.dataset.count) === count) return;
    lines.dataset.count = count;
    lines.textContent = Array.from({ length: count }, (_, i) => i + 1).join("\n");
  }

  function follow() {
    lines.style.transform = `translateY(${-area.scrollTop}px)`;
    mark.style.transform = `translateY(${PAD + (markedLine - 1) * LINE - area.scrollTop}px)`;
  }

  /** Keeps the text as a step to come back to. */
  function keep() {
    if (steps.at(-1) === area.value) return;
    steps = [...steps.slice(-MOST_STEPS), area.value];
    undone = [];
  }

  function put(value) {
    area.value = value;
    number();
    follow();
    Bus.tell("edited", value, 0);
  }

  function undo() {
    keep();
    if (steps.length < 2) return;
    undone.push(steps.pop());
    put(steps.at(-1));
  }

  function redo() {
    if (!undone.length) return;
    steps.push(undone.pop());
    put(steps.at(-1));
  }

  /** Another text in place of this one. */
  function load(value) {
    keep();
    area.value = value;
    area.scrollTop = 0;
    area.scrollLeft = 0;
    keep();
    number();
    clear();
    follow();
  }

  /** Writes a value in the place of a path; answers whether the text has that place. */
  function write(path, value, wait) {
    const place = places().places.get(path);
    if (!place) return false;
    keep();
    const { scrollTop, scrollLeft } = area;
    area.value = area.value.slice(0, place.start) + value + area.value.slice(place.end);
    area.scrollTop = scrollTop;
    area.scrollLeft = scrollLeft;
    number();
    Bus.tell("edited", area.value, wait);
    return true;
  }

  function clear() {
    markedLine = 0;
    Dom.show(mark, false);
    Dom.show(box, false);
  }

  /** Where a refusal is: by the line and column that the program names, else by its path. */
  function placeOf(path, hint) {
    const told = /line (\d+), column (\d+)/.exec(hint);
    if (told) return { line: Number(told[1]), start: startOf(Number(told[1])) + Number(told[2]) - 1 };
    const found = path === "-" ? { start: places().broken } : Toml.placeOf(places(), path);
    if (!found || found.start === undefined) return null;
    return { line: Toml.lineOf(area.value, found.start), start: found.start };
  }

  const startOf = (line) => area.value.split("\n").slice(0, line - 1).join("\n").length + (line > 1 ? 1 : 0);

  function goTo(place) {
    area.focus();
    area.setSelectionRange(place.start, place.start);
    area.scrollTop = Math.max(0, (place.line - 6) * LINE);
    follow();
  }

  /** Shows a refusal at its line, with what the program says to it. */
  function refused(run, answer) {
    const [, kind, path] = /refused: (\S+) (\S+)/.exec(answer.text) || [null, "", ""];
    const place = path ? placeOf(path, answer.hint) : null;
    markedLine = place ? place.line : 0;
    Dom.show(mark, Boolean(place));
    mark.textContent = place ? String(place.line) : "";
    const said = answer.hint.trim().replace(/^[^:]*: /, "");
    Dom.fill(box,
      Dom.make("p", {}, Dom.make("b", {}, place ? `Line ${place.line} ` : ""),
        Dom.make("code", {}, path || answer.text.trim())),
      Dom.make("p", { id: "refusal-hint" }, said || `${kind} ${path}`),
      place && Dom.make("button", { type: "button", click: () => goTo(place) }, "Go there"));
    Dom.show(box, true);
    follow();
  }

  function keys(event) {
    if (event.key === "Escape") area.blur();
    if (!(event.ctrlKey || event.metaKey) || event.altKey) return;
    const key = event.key.toLowerCase();
    if (key !== "z" && key !== "y") return;
    event.preventDefault();
    if (key === "y" || event.shiftKey) redo();
    else undo();
  }

  area.addEventListener("input", () => {
    number();
    Bus.tell("edited", area.value, null);
  });
  area.addEventListener("scroll", follow);
  area.addEventListener("keydown", keys);
  area.addEventListener("blur", keep);
  Bus.on("start", keep);
  Bus.on("accepted", clear);
  Bus.on("refused", refused);

  return { text, places, load, write, undo, focus: () => area.focus() };
})();
