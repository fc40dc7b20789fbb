"use strict";
/** The keyboard on a picture: arrows move a cross, with Shift to the next bar, Enter asks why. */
const Cross = (() => {
  const place = Dom.at("picture");
  const STEP = 40;
  let cross = null;
  let shape = null;

  const lanes = () => {
    const current = Picture.current();
    return current ? current.marks.lanes.filter((lane) => lane.kind !== "partition") : [];
  };

  const middle = (lane) => (lane.top + lane.bottom) / 2;
  const xOf = (moment, stretch) => stretch.left
    + ((moment - stretch.from) * (stretch.right - stretch.left)) / (stretch.to - stretch.from);

  function paint() {
    if (shape) shape.remove();
    shape = null;
    if (!cross || !lanes()[cross.lane]) return;
    const { svg } = Picture.current();
    const [, , , height] = svg.getAttribute("viewBox").split(" ").map(Number);
    shape = Dom.draw("g", { class: "cross" },
      Dom.draw("path", { d: `M${cross.x} 900V${height - 300}` }),
      Dom.draw("circle", { cx: cross.x, cy: middle(lanes()[cross.lane]), r: 90 }));
    svg.append(shape);
  }

  /** Puts the cross at a thread's moment, if the picture has its lane. */
  function set(thread, moment) {
    const lane = lanes().findIndex((it) => it.kind === "thread" && it.name === thread);
    const stretch = lane >= 0 && Pointer.stretchOf(lanes()[lane]);
    cross = stretch && moment >= stretch.from && moment <= stretch.to ? { lane, x: Math.round(xOf(moment, stretch)) }
      : null;
    paint();
    if (cross) reveal();
  }

  /** Where the picture is wider than its place, it is moved so that the moment is in sight. */
  function reveal() {
    const width = place.firstElementChild ? place.firstElementChild.offsetWidth : 0;
    const x = (cross.x * width) / 14000;
    if (x < place.scrollLeft + 120 || x > place.scrollLeft + place.clientWidth - 40) {
      place.scrollLeft = Math.max(0, x - place.clientWidth / 2);
    }
  }

  function start() {
    const stretch = Pointer.stretchOf(lanes()[0]);
    cross = { lane: 0, x: (stretch.left + stretch.right) / 2 };
  }

  /** The next bar's middle in a direction, so that it is never left out for being thin. */
  function nextBar(direction) {
    const middles = lanes()[cross.lane].bars().map((bar) => Math.round((bar.left + bar.right) / 2)).sort((a, b) =>
      a - b);
    const next = direction > 0 ? middles.find((x) => x > cross.x) : middles.reverse().find((x) => x < cross.x);
    if (next !== undefined) cross.x = next;
  }

  function step(event) {
    const lane = lanes()[cross.lane];
    const stretch = Pointer.stretchOf(lane);
    const across = { ArrowLeft: -1, ArrowRight: 1 }[event.key];
    if (across && event.shiftKey) nextBar(across);
    else if (across) cross.x = Math.min(stretch.right, Math.max(stretch.left, cross.x + across * STEP));
    else cross.lane = Math.min(lanes().length - 1, Math.max(0, cross.lane + (event.key === "ArrowDown" ? 1 : -1)));
  }

  function ask() {
    const lane = lanes()[cross.lane];
    const point = { x: cross.x, y: middle(lane), pixel: 12 };
    const thread = Pointer.threadOf(lane, Pointer.barAt(lane, point));
    if (thread) Why.ask(thread, Pointer.momentIn(point, lane), { byKeys: true });
  }

  function keys(event) {
    const isArrow = ["ArrowLeft", "ArrowRight", "ArrowUp", "ArrowDown"].includes(event.key);
    if (!(isArrow || event.key === "Enter") || event.ctrlKey || event.altKey || !lanes().length) return;
    event.preventDefault();
    if (event.key === "Enter") {
      if (cross) ask();
      return;
    }
    if (cross) step(event);
    else start();
    paint();
    reveal();
  }

  place.addEventListener("keydown", keys);
  Bus.on("picture", () => {
    cross = null;
    shape = null;
    Bus.tell("pictured");
  });

  return { set };
})();
