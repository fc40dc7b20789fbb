"use strict";
/** Which stretch of time the pictures show: from one tick to another, or the whole run. */
const Stretch = (() => {
  const bar = Dom.at("overview-part");
  const from = Dom.at("from");
  const to = Dom.at("to");
  const back = Dom.at("zoom-back");
  let chosen = null;
  let before = [];
  let reached = null;

  /** The run's ticks and the tick's length; what a picture of the whole says where the run ended early. */
  function total() {
    const run = Runs.shown();
    const summary = run && run.summary;
    const tick = summary ? summary.tick : 1e6;
    const ticks = reached !== null ? Math.ceil(reached / tick) : summary ? summary.ticks : 1;
    return { tick, ticks: Math.max(1, ticks) };
  }

  const now = () => chosen || { from: 0, to: total().ticks };
  const isWhole = () => chosen === null;

  function clamped(stretch) {
    const { ticks } = total();
    const length = Math.max(1, Math.min(ticks, Math.round(stretch.to - stretch.from)));
    const begin = Math.max(0, Math.min(ticks - length, Math.round(stretch.from)));
    return { from: begin, to: begin + length };
  }

  function set(stretch) {
    const { ticks } = total();
    const next = Backend.snap(clamped(stretch), Picture.tab());
    const wanted = next.from === 0 && next.to >= ticks ? null : { from: next.from, to: next.to };
    if (JSON.stringify(wanted) === JSON.stringify(chosen)) return paint();
    before = [...before.slice(-50), chosen];
    chosen = wanted;
    return tell();
  }

  function tell() {
    paint();
    Bus.tell("stretch");
  }

  function goBack() {
    if (!before.length) return;
    chosen = before.pop();
    tell();
  }

  /** Closer or wider, around a moment (in ticks) that stays in its place. */
  function zoom(factor, around) {
    const { from: begin, to: end } = now();
    const middle = around === undefined ? (begin + end) / 2 : around;
    const part = (middle - begin) / (end - begin);
    const length = Math.max(1, (end - begin) * factor);
    set({ from: middle - length * part, to: middle + length * (1 - part) });
  }

  function move(part) {
    const { from: begin, to: end } = now();
    const by = Math.trunc((end - begin) * part) || Math.sign(part);
    set({ from: begin + by, to: end + by });
  }

  const all = () => set({ from: 0, to: total().ticks });

  /** A stretch around a moment: as long as now, but at most 40 ticks. */
  function show(ns) {
    const { tick } = total();
    const length = Math.min(40, now().to - now().from);
    const at = Math.floor(ns / tick);
    if (chosen && chosen.to - chosen.from <= 80 && at >= chosen.from && at < chosen.to) return;
    set({ from: at - Math.floor(length / 2), to: at - Math.floor(length / 2) + length });
  }

  function paint() {
    const { tick, ticks } = total();
    const { from: begin, to: end } = now();
    bar.style.left = `${(begin * 100) / ticks}%`;
    bar.style.width = `${Math.max(0.3, ((end - begin) * 100) / ticks)}%`;
    if (document.activeElement !== from) from.value = Numbers.plainMs(begin * tick);
    if (document.activeElement !== to) to.value = Numbers.plainMs(end * tick);
    back.disabled = !before.length;
  }

  function typed() {
    const { tick } = total();
    const [begin, end] = [from, to].map((field) => Numbers.nsOf(field.value));
    const wrong = begin === null || end === null || begin >= end;
    for (const field of [from, to]) field.setAttribute("aria-invalid", String(wrong));
    if (!wrong) set({ from: Math.floor(begin / tick), to: Math.ceil(end / tick) });
  }

  /** The options of a picture of this stretch. */
  const options = () => (chosen ? { from: chosen.from, to: chosen.to } : {});

  function accepted(run) {
    reached = null;
    if (chosen && run.summary && chosen.to > run.summary.ticks) chosen = null;
    paint();
  }

  /** A picture of the whole says how far the run came. */
  function reach(ns) {
    if (chosen || ns === reached) return;
    reached = ns;
    paint();
  }

  function reset() {
    chosen = null;
    before = [];
    reached = null;
  }

  const listen = (id, action) => Dom.at(id).addEventListener("click", action);
  listen("move-left", () => move(-0.5));
  listen("move-right", () => move(0.5));
  listen("zoom-in", () => zoom(1 / Backend.zoomStep));
  listen("zoom-out", () => zoom(Backend.zoomStep));
  listen("zoom-all", all);
  listen("zoom-back", goBack);
  from.addEventListener("change", typed);
  to.addEventListener("change", typed);
  Bus.on("summary", accepted);

  return { now, total, isWhole, set, zoom, move, all, goBack, show, options, reach, reset };
})();
