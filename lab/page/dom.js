"use strict";
/** Makes elements. Text enters the page as text nodes; nothing here takes HTML, style or code as text. */
const Dom = (() => {
  const SVG = "http://www.w3.org/2000/svg";

  const at = (id) => document.getElementById(id);

  function fill(element, ...children) {
    element.replaceChildren(...children.flat(2).filter((it) => it !== null && it !== undefined));
    return element;
  }

  function setOne(element, name, value) {
    if (typeof value === "function") {
      element.addEventListener(name, value);
    } else if (name === "style" || name.startsWith("on")) {
      throw new Error(`no attribute for text: ${name}`);
    } else if (value === true) {
      element.setAttribute(name, "");
    } else if (value !== false && value !== null && value !== undefined) {
      element.setAttribute(name, String(value));
    }
  }

  function dress(element, attributes, children) {
    for (const [name, value] of Object.entries(attributes)) setOne(element, name, value);
    return fill(element, ...children);
  }

  /** An element with attributes and children. An attribute whose value is a function is a listener. */
  const make = (tag, attributes = {}, ...children) => dress(document.createElement(tag), attributes, children);

  const draw = (tag, attributes = {}, ...children) => dress(document.createElementNS(SVG, tag), attributes, children);

  /** A button that looks like a link. */
  const link = (text, action, title) =>
    make("button", { type: "button", class: "link", click: action, title: title || null }, text);

  function show(element, visible) {
    element.hidden = !visible;
  }

  return { at, fill, make, draw, link, show, SVG };
})();
