"use strict";
/** Two runs side by side: A, which was pinned, and now. */
const Compare = (() => {
  const place = Dom.at("compare");
  const FEW = 10;
  let pinned = null;
  let showsAll = false;
  let showsPictures = false;

  const SIGNS = { 1: ["▲ worse", "bad"], "-1": ["▼ better", "good"], 0: ["moved", "moved"] };

  function pin() {
    const run = Runs.shown();
    if (!run) return;
    pinned = { ...run, name: Lab.name() || "text" };
    showsAll = false;
    fill();
    place.scrollIntoView({ block: "nearest" });
  }

  function unpin() {
    pinned = null;
    showsPictures = false;
    Picture.pin(null);
    Dom.show(place, false);
  }

  const amount = (it, value) => (it.isTime ? Numbers.ms(value) : Numbers.count(value));
  const signed = (it) => {
    const difference = it.now - it.before;
    return (difference < 0 ? "−" : "+") + amount(it, Math.abs(difference));
  };

  function row(it) {
    const [sign, kind] = SIGNS[it.sign];
    return Dom.make("tr", { class: kind }, Dom.make("td", { class: "sign-cell" }, sign), Dom.make("td", {}, it.of),
      Dom.make("td", {}, it.what),
      Dom.make("td", {}, amount(it, it.before)), Dom.make("td", {}, amount(it, it.now)),
        Dom.make("td", { class: "difference" }, signed(it)));
  }

  function table(rows) {
    const heads = ["", "of", "what", "A", "now", "difference"].map((it) => Dom.make("th", { scope: "col" }, it));
    return Dom.make("table", {}, Dom.make("thead", {}, Dom.make("tr", {}, heads)),
      Dom.make("tbody", {}, rows.map(row)));
  }

  function changedLines(now) {
    const changed = Diff.lines(pinned.source, now.source);
    return Dom.make("div", { class: "changed" }, changed.slice(0, FEW).map((it) =>
      Dom.make("div", { class: "changed-line" }, Dom.make("span", {}, `line ${it.line}`),
        Dom.make("del", {}, it.before.trim()),
        Dom.make("ins", {}, it.now.trim()))),
    changed.length > FEW ? Dom.make("p", { class: "hint" }, `and ${changed.length - FEW} more lines`) : null);
  }

  function badges(differences) {
    const count = (sign) => differences.filter((it) => it.sign === sign).length;
    return [[1, "worse", "bad"], [-1, "better", "good"], [0, "moved", "moved"]].map(([sign, word, kind]) =>
      Dom.make("span", { class: `badge ${kind}` }, `${count(sign)} ${word}`));
  }

  function pictureBox() {
    const box = Dom.make("input", { type: "checkbox", id: "pictures-of-a", change: (event) => {
      showsPictures = event.target.checked;
      Picture.pin(showsPictures ? pinned : null);
    } });
    box.checked = showsPictures;
    return Dom.make("label", {}, box, " pictures of A above");
  }

  function goBack() {
    Lab.load(pinned.name, pinned.source);
  }

  function fill() {
    const now = Runs.shown();
    if (!pinned || !now) return;
    const differences = Diff.ofRuns(pinned, now);
    const shownRows = showsAll ? differences : differences.slice(0, FEW);
    const half = Math.ceil(shownRows.length / 2);
    Dom.show(place, true);
    Dom.fill(place,
      Dom.make("div", { class: "row" }, Dom.make("h2", {}, "A and now"), Dom.make("small", {}, `A: ${pinned.name}`),
        badges(differences),
        Dom.make("span", { class: "gap" }), pictureBox(),
          Dom.make("button", { type: "button", id: "back-to-a", click: goBack }, "Back to A"),
        Dom.make("button", { type: "button", id: "unpin", click: unpin }, "Unpin")),
      changedLines(now),
      differences.length ? Dom.make("div", { class: "columns" }, table(shownRows.slice(0, half)),
        half < shownRows.length ? table(shownRows.slice(half)) : null)
        : Dom.make("p", { class: "hint" }, "No number differs."),
      differences.length > FEW ? Dom.link(showsAll ? "fewer" : `all ${differences.length} differences`, () => {
        showsAll = !showsAll;
        fill();
      }) : null);
  }

  Parts.add(place, ["shares", "latency"]);
  Dom.at("pin").addEventListener("click", pin);
  for (const report of ["summary", "shares", "latency"]) Bus.on(report, fill);

  return { pin, isPinned: () => pinned !== null };
})();
