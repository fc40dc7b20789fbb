"use strict";
/** What a picture shows: its stretch of time, lanes and bars, from the data that it carries. */
const Marks = (() => {
  const data = (element, name) => element.getAttribute(`data-${name}`);
  const whole = (element, name) => Number(data(element, name));

  function barOf(element) {
    const rect = element.localName === "rect" ? element : element.querySelector("rect");
    const title = element.querySelector("title");
    return {
      from: whole(element, "from"), to: whole(element, "to"), state: data(element, "state") || "running",
      thread: data(element, "thread"), text: title ? title.textContent : "",
      left: Number(rect.getAttribute("x")), right: Number(rect.getAttribute("x"))
        + Number(rect.getAttribute("width")),
    };
  }

  /** A panel of its own width says where it is; else a lane is as wide as the picture. */
  const stretchOf = (group, stretch) => (group.hasAttribute("data-left")
    ? { ...stretch, left: whole(group, "left"), right: whole(group, "right") } : stretch);

  function laneOf(group, all) {
    const kind = data(group, "lane");
    const stretch = stretchOf(group, all);
    return {
      kind, name: kind === "cpu" ? `cpu ${data(group, "cpu")}` : data(group, kind),
      top: whole(group, "top"), bottom: whole(group, "bottom"), stretch,
      bars: () => Array.from(group.querySelectorAll("[data-from]"), barOf),
    };
  }

  function legendOf(svg) {
    return Array.from(svg.querySelectorAll("[data-legend]"), (it) =>
      ({ name: data(it, "legend"), paint: it.querySelector("rect").getAttribute("fill") }));
  }

  function carried(svg) {
    const stretch = {
      from: whole(svg, "from-ns"), to: whole(svg, "to-ns"), left: whole(svg, "left"), right: whole(svg, "right"),
    };
    const lanes = Array.from(svg.querySelectorAll("[data-lane]"), (it) => laneOf(it, stretch));
    return { stretch, lanes, legend: legendOf(svg), columns: svg.hasAttribute("data-columns") };
  }

  function read(svg) {
    const marks = svg.hasAttribute("data-report") ? carried(svg) : Pixels.read(svg);
    for (const lane of marks.lanes) lane.bars = once(lane.bars);
    return marks;
  }

  /** Bars are read when somebody first looks at their lane. */
  function once(make) {
    let made = null;
    return () => (made = made || make());
  }

  return { read };
})();
