"use strict";
/** The partitions' paints, as the newest picture's legend has them, for cards and tables. */
const Paints = (() => {
  const store = Dom.at("paints");
  const paints = new Map();

  /**
   * Patterns of a picture that isn't displayed don't paint elsewhere, so copies of them are kept in a drawing of no size. A
   * unit of a picture is a tenth of a pixel.
   */
  function take(svg, legend) {
    if (!legend.length) return;
    const patterns = Array.from(svg.querySelectorAll("pattern"), (it) => {
      const copy = it.cloneNode(true);
      copy.setAttribute("id", `kept-${it.getAttribute("id")}`);
      copy.setAttribute("patternTransform", "scale(0.1)");
      return copy;
    });
    Dom.fill(store, Dom.draw("svg", { width: 0, height: 0 }, Dom.draw("defs", {}, patterns)));
    paints.clear();
    for (const { name, paint } of legend) paints.set(name, paint.replace("url(#", "url(#kept-"));
    refresh();
  }

  function refresh() {
    for (const swatch of document.querySelectorAll("rect[data-of]")) paint(swatch);
  }

  function paint(rect) {
    rect.setAttribute("fill", paints.get(rect.getAttribute("data-of")) || "#ffffff");
  }

  /** A box in a partition's paint. */
  function swatch(name) {
    const rect = Dom.draw("rect", { x: 0.5, y: 0.5, width: 11, height: 11, "data-of": name });
    paint(rect);
    return Dom.draw("svg", { class: "swatch", width: 12, height: 12, viewBox: "0 0 12 12", "aria-hidden": "true" },
      rect);
  }

  /** A bar of a drawing in a partition's paint. */
  function bar(name, attributes) {
    const rect = Dom.draw("rect", { ...attributes, "data-of": name });
    paint(rect);
    return rect;
  }

  return { take, swatch, bar };
})();
