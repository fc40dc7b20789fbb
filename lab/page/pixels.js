"use strict";
/**
 * What a picture shows, from its labels and titles. To go as soon as all pictures carry it as data: it breaks with the
 * first change of drawing.
 */
const Pixels = (() => {
  const LEFT = 1400;
  const RIGHT = 13400;

  const number = (element, name) => Number(element.getAttribute(name));
  const texts = (element) => Array.from(element.children).filter((it) => it.localName === "text");

  /** The stretch in the title of `threads` and `timeline`, in ns. */
  function stretchOf(svg) {
    const title = texts(svg)[0];
    const found = title && /^\S+ ([\d.]+) to ([\d.]+) ms, /.exec(title.textContent);
    return found ? { from: Numbers.nsOf(found[1]), to: Numbers.nsOf(found[2]), left: LEFT, right: RIGHT } : null;
  }

  /** The stretch of a panel, from the first and the last number below its axis. */
  function stretchOfAxis(group) {
    const labels = texts(group).filter((it) => it.getAttribute("text-anchor") === "middle"
      && /^[\d.]+$/.test(it.textContent));
    if (labels.length < 2) return null;
    const [first, last] = [labels[0], labels.at(-1)].map((it) =>
      ({ x: number(it, "x"), at: Numbers.nsOf(it.textContent) }));
    const frame = Array.from(group.children).find((it) => it.localName === "path"
      && /^M\d+ \d+h\d+$/.test(it.getAttribute("d")));
    const [, left, width] = /^M(\d+) \d+h(\d+)$/.exec(frame.getAttribute("d")).map(Number);
    const perUnit = (last.at - first.at) / (last.x - first.x);
    const at = (x) => Math.round(first.at + (x - first.x) * perUnit);
    return { from: at(left), to: at(left + width), left, right: left + width };
  }

  const boxOf = (element) =>
    ({ left: number(element, "x"), right: number(element, "x") + number(element, "width") });

  /** What a title of `threads` says: a thread, what it does, and from when to when. */
  const TITLE = /^\S+ (on cpu|ready|waits for the reply|waits to send|waits for a message).*?, ([\d.]+) to ([\d.]+) ms/;
  const STATES = { "on cpu": "running", ready: "ready", "waits for the reply": "waits for a server",
    "waits to send": "waits for a server" };

  /** Bars of a thread's lane: a group with a title each. A dotted line, for a message that is waited for, is no bar. */
  function threadBars(group) {
    return Array.from(group.children).filter((it) => it.localName === "g").map((bar) => {
      const found = TITLE.exec(bar.firstElementChild.textContent);
      const rect = bar.querySelector("rect");
      return found && rect && STATES[found[1]]
        && { from: Numbers.nsOf(found[2]), to: Numbers.nsOf(found[3]), state: STATES[found[1]], ...boxOf(rect) };
    }).filter(Boolean);
  }

  function threadLane(group) {
    const label = texts(group)[0];
    const top = number(label, "y") - 110;
    return { kind: "thread", name: label.textContent, top, bottom: top + 150, bars: () => threadBars(group) };
  }

  function cpuBars(group) {
    return Array.from(group.children).filter((it) => it.localName === "g").map((bar) => {
      const found = /^(\S+) on cpu \d+, ([\d.]+) to ([\d.]+) ms/.exec(bar.firstElementChild.textContent);
      const rect = bar.querySelector("rect");
      return found && rect
        && { thread: found[1], from: Numbers.nsOf(found[2]), to: Numbers.nsOf(found[3]), state: "running",
          text: bar.firstElementChild.textContent, ...boxOf(rect) };
    }).filter(Boolean);
  }

  function cpuLane(group) {
    const label = texts(group)[0];
    const top = number(label, "y") - 140;
    return { kind: "cpu", name: label.textContent, top, bottom: top + 260, bars: () => cpuBars(group) };
  }

  function partitionLane(group) {
    const label = texts(group)[0];
    const top = number(label, "y") - 120;
    return { kind: "partition", name: label.textContent.split(" ")[0], top, bottom: top + 1300, bars: () => [],
      stretch: stretchOfAxis(group) };
  }

  const idOf = (group) => (group.getAttribute("id") || "").replace(/^s\d+-/, "");

  /** Each partition's paint: a box, and behind it a text that begins with its name. */
  function legendOf(svg) {
    const parts = Array.from(svg.children);
    return parts.map((it, i) => {
      const found = it.localName === "text" && /^([A-Za-z0-9_-]{1,15}) [\d.-]+ % of [\d.-]+ %$/.exec(it.textContent);
      const box = parts[i - 1];
      return found && box && box.localName === "rect" ? { name: found[1], paint: box.getAttribute("fill") } : null;
    }).filter(Boolean);
  }

  function read(svg) {
    const stretch = stretchOf(svg);
    const groups = Array.from(svg.children).filter((it) => it.localName === "g");
    const lanes = groups.map((group) => {
      if (/^thread\d+$/.test(idOf(group))) return threadLane(group);
      if (/^cpu\d+$/.test(idOf(group))) return cpuLane(group);
      return /^partition\d+$/.test(idOf(group)) ? partitionLane(group) : null;
    }).filter(Boolean);
    const columns = texts(svg).some((it) => it.textContent.startsWith("each column"));
    return { stretch: stretch || (lanes[0] && lanes[0].stretch) || null, lanes, legend: legendOf(svg), columns };
  }

  return { read };
})();
