"use strict";
/** The mouse on a picture: a bar says what it is, a click asks why, a drag zooms to whole ticks. */
const Pointer = (() => {
  const place = Dom.at("picture");
  const tip = Dom.at("tip");
  const NEAR = 4;
  let drag = null;
  let band = null;

  const current = () => Picture.current();

  /** A point of the page in the picture's own units. */
  function unitsOf(event) {
    const svg = current().svg;
    const box = svg.getBoundingClientRect();
    const [, , width, height] = svg.getAttribute("viewBox").split(" ").map(Number);
    return { x: ((event.clientX - box.left) * width) / box.width,
      y: ((event.clientY - box.top) * height) / box.height,
      pixel: width / box.width };
  }

  const isIn = (bar, at) => bar.left <= at.x && at.x <= bar.right;

  function laneAt(point) {
    const lanes = current().marks.lanes;
    const stretches = (lane) => lane.stretch || current().marks.stretch;
    return lanes.find((lane) => {
      const margin = lane.kind === "partition" ? 0 : 45;
      const over = point.y >= lane.top - margin && point.y <= lane.bottom + margin;
      return over && stretches(lane) && point.x >= stretches(lane).left - 5 && point.x <= stretches(lane).right + 5;
    });
  }

  const stretchOf = (lane) => (lane && lane.stretch) || current().marks.stretch;

  function momentOf(x, stretch) {
    const part = Math.min(1, Math.max(0, (x - stretch.left) / (stretch.right - stretch.left)));
    return stretch.from + Math.round(part * (stretch.to - stretch.from));
  }

  const barAt = (lane, point) => lane.bars().find((bar) => isIn(bar, point)) || null;

  /** The roundest moment within half a pixel that lies in the bar. */
  function momentIn(point, lane) {
    const stretch = stretchOf(lane);
    const bar = barAt(lane, point);
    const half = point.pixel / 2;
    let low = momentOf(point.x - half, stretch);
    let high = momentOf(point.x + half, stretch);
    if (bar) {
      low = Math.min(Math.max(low, bar.from), Math.max(bar.from, bar.to - 1));
      high = Math.max(low, Math.min(high, bar.to - 1));
    }
    return Numbers.roundest(low, high);
  }

  const threadOf = (lane, bar) => (lane.kind === "thread" ? lane.name : bar && bar.thread);

  function describe(lane, bar, point) {
    if (bar && bar.text) return bar.text;
    const at = Numbers.ms(momentIn(point, lane));
    if (lane.kind === "partition") return `${lane.name}, ${at}`;
    return bar && !current().marks.columns
      ? `${lane.name}: ${bar.state}, ${Numbers.plainMs(bar.from)} to ${Numbers.ms(bar.to)}` : `${lane.name}, ${at}`;
  }

  function say(event, text) {
    Dom.show(tip, text !== "");
    tip.textContent = text;
    const left = Math.min(event.clientX + 12, innerWidth - tip.offsetWidth - 8);
    tip.style.left = `${Math.max(4, left)}px`;
    tip.style.top = `${event.clientY + 16}px`;
  }

  function begin(event) {
    if (event.button !== 0 || !current() || !current().marks.stretch) return;
    const point = unitsOf(event);
    const lane = laneAt(point);
    const stretch = stretchOf(lane);
    if (!stretch || point.x < stretch.left - 20 || point.x > stretch.right + 20) return;
    drag = { x: point.x, clientX: event.clientX, stretch, moving: event.shiftKey, begun: Stretch.now() };
    place.setPointerCapture(event.pointerId);
  }

  function paintBand(point) {
    const [, , , height] = current().svg.getAttribute("viewBox").split(" ");
    if (!band) {
      band = Dom.draw("rect", { class: "band", y: 0, height });
      current().svg.append(band);
    }
    band.setAttribute("x", Math.min(drag.x, point.x));
    band.setAttribute("width", Math.abs(point.x - drag.x));
  }

  function over(event) {
    if (!current() || !current().marks.stretch) return;
    const point = unitsOf(event);
    if (drag && Math.abs(event.clientX - drag.clientX) > NEAR) {
      const [low, high] = ends(point);
      if (!drag.moving) paintBand(point);
      say(event, `${Numbers.plainMs(low)} to ${Numbers.ms(high)}, ${Numbers.ms(high - low)} long`);
      return;
    }
    const lane = laneAt(point);
    say(event, lane ? describe(lane, barAt(lane, point), point) : "");
    place.classList.toggle("asks", Boolean(lane && threadOf(lane, barAt(lane, point))));
  }

  const ends = (point) => [momentOf(drag.x, drag.stretch), momentOf(point.x, drag.stretch)].sort((a, b) => a - b);

  function finish(event) {
    if (!drag || !current()) return cancel();
    const point = unitsOf(event);
    const wide = Math.abs(event.clientX - drag.clientX) > NEAR;
    const { tick } = Stretch.total();
    const [low, high] = ends(point);
    const { moving, begun, x, stretch } = drag;
    cancel();
    if (wide && moving) {
      const by = Math.round((momentOf(x, stretch) - momentOf(point.x, stretch)) / tick);
      Stretch.set({ from: begun.from + by, to: begun.to + by });
    } else if (wide) Stretch.set({ from: Math.floor(low / tick), to: Math.ceil(high / tick) });
    else ask(point);
    return null;
  }

  function ask(point) {
    const lane = laneAt(point);
    const thread = lane && threadOf(lane, barAt(lane, point));
    if (thread) Why.ask(thread, momentIn(point, lane), {});
  }

  function cancel() {
    if (band) band.remove();
    band = null;
    drag = null;
  }

  /** A bare wheel scrolls the page: else nobody gets past a picture. */
  function wheel(event) {
    if (!current() || !current().marks.stretch || !(event.ctrlKey || event.shiftKey)) return;
    event.preventDefault();
    const turn = event.deltaY || event.deltaX;
    if (event.shiftKey) return Stretch.move(turn > 0 ? 0.25 : -0.25);
    const point = unitsOf(event);
    const around = momentOf(point.x, stretchOf(laneAt(point))) / Stretch.total().tick;
    return Stretch.zoom(turn > 0 ? Backend.zoomStep : 1 / Backend.zoomStep, around);
  }

  place.addEventListener("pointerdown", begin);
  place.addEventListener("pointermove", over);
  place.addEventListener("pointerup", finish);
  place.addEventListener("pointercancel", cancel);
  place.addEventListener("pointerleave", () => Dom.show(tip, false));
  place.addEventListener("wheel", wheel, { passive: false });
  Bus.on("picture", () => {
    cancel();
    Dom.show(tip, false);
  });

  return { momentIn, stretchOf, threadOf, barAt };
})();
