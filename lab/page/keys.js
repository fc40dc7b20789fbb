"use strict";
/** Keys for the whole page, and the dialog that lists them. */
const Keys = (() => {
  const help = Dom.at("help");
  const LIST = [
    ["/", "goes to the scenario; Esc leaves it"], ["1 2 3", "threads, processors, usage"],
      ["+ - 0", "closer, wider, the whole run"],
    ["[ ]", "earlier, later"], ["Backspace", "the stretch before"],
      ["arrows", "on a picture: move a cross; with Shift to the next bar"],
    ["Enter", "on a picture: why, at the cross"], ["p", "pins this run as A"], ["Esc", "closes Why"],
      ["?", "this list"],
    ["Ctrl+Z", "in the scenario: undoes, a slider's change too"],
      ["Ctrl+wheel, Shift+wheel", "on a picture: zoom, move"],
  ];

  const ACTIONS = {
    "/": () => Editor.focus(),
    1: () => Picture.choose("threads"), 2: () => Picture.choose("timeline"), 3: () => Picture.choose("usage"),
    "+": () => Stretch.zoom(1 / Backend.zoomStep), "=": () => Stretch.zoom(1 / Backend.zoomStep), "-": () =>
      Stretch.zoom(Backend.zoomStep),
    0: Stretch.all, "[": () => Stretch.move(-0.5), "]": () => Stretch.move(0.5), Backspace: Stretch.goBack,
    p: () => !Backend.isSaved && Compare.pin(), "?": open, Escape: () => Why.isOpen() && Why.close(),
  };

  function open() {
    Dom.fill(help, Dom.make("h2", {}, "Keys"), Dom.make("table", {}, Dom.make("tbody", {}, LIST.map(([keys, what]) =>
      Dom.make("tr", {}, Dom.make("th", { scope: "row" }, Dom.make("kbd", {}, keys)), Dom.make("td", {}, what))))),
    Dom.make("form", { method: "dialog" }, Dom.make("button", {}, "Close")));
    help.showModal();
  }

  const isField = (element) => element.matches("textarea, select, input:not([type=range]):not([type=checkbox])");

  function keys(event) {
    if (event.ctrlKey || event.metaKey || event.altKey || isField(event.target) || help.open) return;
    const action = ACTIONS[event.key];
    if (!action) return;
    event.preventDefault();
    action();
  }

  document.addEventListener("keydown", keys);
  Dom.at("help-open").addEventListener("click", open);
})();
