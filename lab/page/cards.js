"use strict";
/** A card for each partition: a verdict in words, its numbers, and a slider for its budget. */
const Cards = (() => {
  const box = Dom.at("cards");
  const about = Dom.at("cards-about");
  const MOST_CARDS = 6;
  const SLIDER_WAIT = 60;
  let names = "";
  let slots = [];

  /** The words of a verdict, from `shares` alone. */
  function verdictOf(shares) {
    if (shares.overspent && shares.overspent.count) {
      return { sign: "!", text: `overspent its critical budget, ${Numbers.ms(shares.overspent.worst)} at worst`,
        brief: "overspent" };
    }
    if (!shares.demand) return { sign: "○", text: "not tested: it paused in every window", brief: "not tested" };
    if (shares.short && shares.short.value > 0) {
      return { sign: "!",
        text: `had work and still lacked ${Numbers.ms(shares.short.value)} of its share in a window`,
        brief: `lacked ${Numbers.ms(shares.short.value)}` };
    }
    return { sign: "✓", text: `had its share in ${shares.had} of ${shares.demand} windows with work throughout`,
      brief: "had its share" };
  }

  const CLASSES = { "!": "bad", "✓": "good", "○": "open" };
  const sign = (verdict) => Dom.make("span", { class: `sign ${CLASSES[verdict.sign]}` }, verdict.sign);

  const whole = (summary) => (summary.end === "horizon" ? summary.cpus * summary.tick * summary.ticks : 0);
  const share = (ns, of) => (of ? Numbers.percent(ns, of) : Numbers.ms(ns));

  /** Used, most, least, free, beyond: what a card says in numbers. */
  function factsOf(summary, partition, shares) {
    const window = summary.cpus * summary.tick * summary.window;
    const part = (it) => (it ? Numbers.percent(it.value, window) : "-");
    const time = (it) => (it ? Numbers.ms(it.value) : "-");
    const facts = [["used", share(partition.billed, whole(summary))]];
    if (shares) {
      facts.push(["most in a window", part(shares.most)], ["least in a window", part(shares.least)],
        ["free at most", time(shares.free)], ["beyond at most", time(shares.beyond)]);
    }
    if (partition.critical) facts.push(["critical", Numbers.ms(partition.critical)]);
    return facts;
  }

  const percentOf = (ns, of) => (of ? (ns * 100) / of : 0);

  /** A bar: what it used, its budget dashed, its most and least in a window. */
  function gauge(summary, partition, shares) {
    const window = summary.cpus * summary.tick * summary.window;
    const used = percentOf(partition.billed, whole(summary));
    const most = shares && shares.most ? percentOf(shares.most.value, window) : used;
    const least = shares && shares.least ? percentOf(shares.least.value, window) : most;
    const budget = percentOf(partition.budget, summary.parts);
    const scale = 92 / Math.max(most, budget, used, 1);
    const at = (value) => value * scale;
    return Dom.draw("svg", { class: "gauge", viewBox: "0 0 100 14", preserveAspectRatio: "none",
      "aria-hidden": "true" },
      Dom.draw("rect", { class: "ground", width: 100, height: 14 }),
      Paints.bar(partition.name, { width: at(used), height: 14 }),
      Dom.draw("path", { class: "whisker", d: `M${at(least)} 7H${at(most)}M${at(least)} 0V14M${at(most)} 0V14` }),
      Dom.draw("path", { class: "budget", d: `M${at(budget)} 0V14` }));
  }

  const placeOf = (partition) => (partition.id === 0 ? null : `partition[${partition.id - 1}].budget`);

  /** What a slider may reach: its own budget and what its parent keeps. The program judges what is written. */
  function reach(summary, partition) {
    const parent = Toml.valueOf(Editor.places(), `partition[${partition.id - 1}].parent`) || "System";
    const keeps = summary.partitions.find((it) => it.name === parent);
    return Math.min(summary.parts, partition.written + (keeps ? keeps.budget : 0));
  }

  /** A slot is made once and then filled: a slider that is made anew while it is dragged loses the hand. */
  function slotOf(partition, brief) {
    const slot = { facts: Dom.make("div", { class: "facts" }), verdict: Dom.make("p", { class: "verdict" }),
      budget: Dom.make("b") };
    slot.slider = Dom.make("input",
      { type: "range", min: 0, step: 1, "aria-label": `budget of ${partition.name}`, class: "live",
      input: () => slide(slot, partition) });
    slot.rest = Dom.make("span", { class: "rest" }, "keeps the rest");
    slot.promise = Dom.make("p", { class: "promise" });
    slot.element = Dom.make("article", { class: brief ? "line" : "tile" },
      Dom.make("h3", {}, Paints.swatch(partition.name), partition.name), slot.verdict, slot.facts, slot.promise,
      Dom.make("div", { class: "budget-row" }, Dom.make("span", {}, "budget"), slot.budget, slot.slider, slot.rest));
    return slot;
  }

  function slide(slot, partition) {
    slot.sliding = true;
    const value = Number(slot.slider.value);
    Editor.write(placeOf(partition), slot.isShare ? `"${value / 10}%"` : value, SLIDER_WAIT);
  }

  /** The budget that the text gives a partition: a number of parts, or a share such as "12.5%" in the short form. */
  function writtenBudget(slot, partition) {
    const found = placeOf(partition) === null ? null : Toml.valueOf(Editor.places(), placeOf(partition));
    const share = /^(\d{1,3})(?:\.(\d))?%$/.exec(found);
    slot.isShare = share !== null;
    return share ? Number(share[1]) * 10 + Number(share[2] || 0) : found;
  }

  function fillSlider(slot, summary, partition) {
    const written = writtenBudget(slot, partition);
    const isThere = Number.isInteger(written) && !Backend.isSaved;
    Dom.show(slot.slider, isThere);
    Dom.show(slot.rest, partition.id === 0);
    slot.budget.textContent = Numbers.budget(partition.budget, summary.parts);
    if (!isThere) return;
    slot.slider.max = reach(summary, { ...partition, written });
    if (document.activeElement !== slot.slider || !slot.sliding) slot.slider.value = written;
    slot.sliding = false;
  }

  const factRow = ([name, value]) => Dom.make("div", {}, Dom.make("span", {}, name), Dom.make("span", {}, value));
  const BRIEF = { "most in a window": "most", "least in a window": "least" };

  function fillSlot(slot, summary, partition, shares, brief) {
    const verdict = shares && verdictOf(shares);
    slot.element.classList.remove("bad", "good", "open");
    if (verdict) slot.element.classList.add(CLASSES[verdict.sign]);
    Dom.fill(slot.verdict, verdict ? [sign(verdict), Dom.make("span", {}, brief ? verdict.brief : verdict.text)]
      : "");
    const facts = factsOf(summary, partition, shares);
    const rows = brief ? facts.slice(0, 3).map(([name, value]) => [BRIEF[name] || name, value]) : facts;
    Dom.fill(slot.facts, brief ? null : gauge(summary, partition, shares), rows.map(factRow));
    fillSlider(slot, summary, partition);
  }

  function fill(run) {
    if (!run.summary) return;
    const answer = run.answers.get("shares");
    const shares = answer && Runs.isRan(answer) ? Texts.shares(answer.text) : null;
    const brief = run.summary.partitions.length > MOST_CARDS;
    const wanted = run.summary.partitions.map((it) => it.name).join(" ");
    if (wanted !== names) {
      names = wanted;
      slots = run.summary.partitions.map((it) => slotOf(it, brief));
      Dom.fill(box, slots.map((it) => it.element));
    }
    box.className = brief ? "lines" : "tiles";
    run.summary.partitions.forEach((partition, i) =>
      fillSlot(slots[i], run.summary, partition, shares && shares.partitions.find((it) => it.id === partition.id),
        brief));
    about.textContent = shares
      ? `${Numbers.several(shares.windows, "full window")} of ${Numbers.ms(run.summary.window * run.summary.tick)}`
        : "";
  }

  /** What holds of every run, as `promise` prints it for each partition. */
  function promise(run, answer) {
    let slot = null;
    for (const words of Texts.rows(answer.text)) {
      if (words[0] === "partition") slot = slots[Number(words[1])];
      else if (words[0] === "share" && slot) {
        slot.promise.textContent = words[1] === "none" ? ""
          : `promised in every run: ${Numbers.ms(Number(words[1]))} within ${Numbers.ms(Number(words[3]))}, while it has work`;
        slot = null;
      }
    }
  }

  function stopped(run, answer) {
    if (answer.report !== "shares") return;
    for (const slot of slots) Dom.fill(slot.verdict, Dom.make("span", { class: "sign bad" }, "!"),
      "shares took too long, and was stopped");
  }

  Parts.add(Dom.at("cards-part"), ["shares"]);
  Bus.on("summary", fill);
  Bus.on("shares", fill);
  Bus.on("promise", promise);
  Bus.on("stopped", stopped);

  return { verdictOf };
})();
