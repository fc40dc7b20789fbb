"use strict";
/** Takes a picture into the page: read as XML, and of it only what the programs draw with. */
const Svg = (() => {
  const ELEMENTS = ["svg", "title", "defs", "pattern", "path", "rect", "text", "g", "circle"];
  const ATTRIBUTES = [
    "width", "height", "viewBox", "font-family", "fill", "patternUnits", "d", "stroke", "stroke-width", "x", "y",
      "font-size",
    "text-anchor", "opacity", "stroke-dasharray", "cx", "cy", "r",
  ];
  const PAINTS = ["fill", "stroke"];
  const PAINT = /^(none|#[0-9a-f]{6}|url\(#[A-Za-z0-9_-]{1,20}\))$/;
  const ID = /^[A-Za-z0-9_-]{1,20}$/;
  let made = 0;

  function cleanAttribute(element, { name, value }, prefix) {
    if (name === "id" && ID.test(value)) {
      element.setAttribute("id", prefix + value);
    } else if (PAINTS.includes(name) && PAINT.test(value)) {
      if (value.startsWith("url")) element.setAttribute(name, value.replace("#", `#${prefix}`));
    } else if (PAINTS.includes(name) || !(ATTRIBUTES.includes(name) || /^data-[a-z-]{1,20}$/.test(name))) {
      element.removeAttribute(name);
    }
  }

  /** Cleans an element in place: to copy thousands of nodes takes twice as long. */
  function clean(element, prefix) {
    for (const attribute of Array.from(element.attributes)) {
      if (attribute.name !== "xmlns") cleanAttribute(element, attribute, prefix);
    }
    for (const child of Array.from(element.childNodes)) {
      if (child.nodeType === Node.TEXT_NODE) continue;
      const known = child.nodeType === Node.ELEMENT_NODE && child.namespaceURI === Dom.SVG
        && ELEMENTS.includes(child.localName)
        && !child.prefix;
      if (known) clean(child, prefix);
      else child.remove();
    }
  }

  /** The picture as an element of this page, or null where it is none. */
  function adopt(text) {
    const parsed = new DOMParser().parseFromString(text, "image/svg+xml");
    const root = parsed.documentElement;
    if (root.localName !== "svg" || root.namespaceURI !== Dom.SVG || parsed.querySelector("parsererror")) return null;
    made += 1;
    clean(root, `s${made}-`);
    return document.adoptNode(root);
  }

  return { adopt };
})();
