"use strict";
/** Reads an answer of `explain`, and says each thread's part of it in sentences. */
const Explained = (() => {
  const ms = (text) => Numbers.ms(Number(text));

  function blocks(text) {
    const found = [];
    for (const words of Texts.rows(text).slice(1)) {
      if (words[0] === "thread") found.push({ name: words[2], state: words[4], since: Number(words[6]), cpus: [],
        ready: [] });
      else if (found.length) line(found.at(-1), words);
    }
    return found;
  }

  function line(block, words) {
    if (words[0] === "own" || words[0] === "counts_as") block[words[0]] = { partition: words[3], priority: words[5],
      critical: words[7] };
    else if (words[0] === "partition") block.partition = partitionOf(words);
    else if (words[0] === "again") block.again = words[1];
    else if (words[0] === "class") block.rank = words[1];
    else if (words[0] === "cpu") block.cpus.push(cpuOf(words));
    else if (words[0] === "ready") block.ready.push({ name: words[2], ahead: words[4] });
    else if (words[0] === "serves") block.serves = words.slice(1);
    else if (words[0] === "because") block.because = words.slice(1);
  }

  const partitionOf = (words) => ({
    name: words[2], used: Texts.numberAfter(words, "used"), allowance: Texts.numberAfter(words, "allowance"),
    inBudget: Texts.after(words, "in_budget") === "yes",
  });

  const cpuOf = (words) => ({
    cpu: words[1], idle: words[2] === "idle", name: words[4], billed: Texts.after(words, "billed") && words[7],
    priority: Texts.after(words, "priority"), next: Texts.numberAfter(words, "next"),
      ahead: Texts.after(words, "ahead") || words.at(-1),
  });

  const strong = (text) => Dom.make("b", {}, text);

  /** The sentence of a line `because`. */
  const SAID = {
    running: (w) => [strong("runs"),
      ` on cpu ${w[2]}, billed to ${w[5]}${w.at(-1) === "yes" ? ", for critical time" : ""}.`],
    shut: () => [strong("is shut out"), ": its partition may have nothing."],
    not_yet: (w) => [strong("hasn't been picked yet"),
      `: some processor is idle or runs a lesser thread, and steps at ${ms(w[2])} at the earliest.`],
    outranked: (w) => [strong("is outranked"),
      ` by ${w[2]} running and ${Numbers.several(Number(w[5]), "ready thread")}.`],
    sleeping: (w) => [strong("sleeps"), ` until ${ms(w[2])}.`],
    waits_for_reply: (w) => [strong("waits for a reply"), ` of ${w[3]}.`],
    waits_for_receiver: (w) => [strong("waits for a receiver"), ` at the channel ${w[3]}.`],
    waits_for_message: (w) => [strong("waits for a message"), ` at the channel ${w[3]}.`],
    gone: () => [strong("is gone"), "."],
  };

  function sentence(block) {
    const [kind] = block.because || [""];
    const made = SAID[kind];
    return Dom.make("p", { class: "sentence" }, `${block.name} `, made ? made(block.because)
      : (block.because || []).join(" "));
  }

  function facts(block, at) {
    const parts = [`${block.state} since ${Numbers.ms(block.since)}`,
      `for ${Numbers.ms(Math.max(0, at - block.since))}`];
    const rank = block.rank === undefined ? "" : `; class ${block.rank}`;
    const priority = block.counts_as ? `; priority ${block.counts_as.priority}` : "";
    return Dom.make("p", { class: "facts-line" }, `${parts.join(", ")}${rank}${priority}`);
  }

  /** A server works as its client: with the client's partition and priority. */
  function inherited(block) {
    const { own, counts_as: as } = block;
    if (!own || !as || (own.partition === as.partition && own.priority === as.priority)) return null;
    return Dom.make("p", { class: "inherited" }, "Works for ", Paints.swatch(as.partition),
      ` ${as.partition} at priority ${as.priority}; of its own it is of `,
      Paints.swatch(own.partition), ` ${own.partition} at ${own.priority}.`);
  }

  function budget(block) {
    const it = block.partition;
    if (!it) return null;
    const again = it.inBudget ? "" : block.again === "-" || block.again === undefined ? ""
      : `, in budget again at ${ms(block.again)} if nothing more is billed`;
    const scale = 96 / Math.max(it.used, it.allowance, 1);
    return Dom.make("div", { class: it.inBudget ? "budget-part" : "budget-part spent" },
      Dom.make("p", {}, Paints.swatch(it.name), " ", strong(it.name), it.inBudget ? " is in budget"
        : ` is out of budget${again}`),
      Dom.draw("svg", { class: "gauge", viewBox: "0 0 100 8", preserveAspectRatio: "none", "aria-hidden": "true" },
        Dom.draw("rect", { class: "ground", width: 100, height: 8 }),
        it.inBudget ? Paints.bar(it.name, { width: it.used * scale, height: 8 })
          : Dom.draw("rect", { class: "spent-bar", width: it.used * scale, height: 8 }),
        Dom.draw("path", { class: "budget", d: `M${it.allowance * scale} 0V8` })),
      Dom.make("p", { class: "facts-line" },
        `used ${Numbers.plainMs(it.used)} of ${Numbers.ms(it.allowance)} in this window`));
  }

  function cpuRow(it, ask) {
    if (it.idle) {
      return Dom.make("tr", {}, Dom.make("td", {}, it.cpu), Dom.make("td", { colspan: 4 }, "idle"),
        Dom.make("td", {}, Numbers.ms(it.next)));
    }
    return Dom.make("tr", {}, Dom.make("td", {}, it.cpu), Dom.make("td", {}, Dom.link(it.name, () => ask(it.name))),
      Dom.make("td", {}, Paints.swatch(it.billed), ` ${it.billed}`), Dom.make("td", {}, it.priority),
      Dom.make("td", {}, it.ahead), Dom.make("td", {}, Numbers.ms(it.next)));
  }

  function cpuTable(block, ask) {
    if (!block.cpus.length) return null;
    const heads = ["cpu", "runs", "billed to", "prio", "ahead by", "steps at"].map((it) =>
      Dom.make("th", { scope: "col" }, it));
    return Dom.make("table", { class: "cpus" }, Dom.make("thead", {}, Dom.make("tr", {}, heads)),
      Dom.make("tbody", {}, block.cpus.map((it) => cpuRow(it, ask))));
  }

  function readyList(block, ask) {
    if (!block.ready.length) return null;
    return Dom.make("p", { class: "ready" }, "Ready and ahead: ", block.ready.map((it, i) =>
      [Dom.link(it.name, () => ask(it.name)), ` ${it.ahead}${i < block.ready.length - 1 ? ", " : ""}`]));
  }

  /** One thread's part. `ask` is called with the name of a thread that is clicked. */
  function part(block, at, isFirst, ask) {
    return Dom.make("section", { class: "explained" }, Dom.make("h3", {}, isFirst ? block.name : `and ${block.name}`),
      sentence(block), facts(block, at), inherited(block), budget(block), cpuTable(block, ask),
        readyList(block, ask));
  }

  return { blocks, part };
})();
