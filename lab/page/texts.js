"use strict";
/** Reads the reports that the programs print. What a line says beyond what is known here is left alone. */
const Texts = (() => {
  const rows = (text) => text.split("\n").filter(Boolean).map((line) => line.split(" "));

  const after = (words, name) => {
    const i = words.indexOf(name);
    return i < 0 ? null : words[i + 1];
  };

  const numberAfter = (words, name) => {
    const found = after(words, name);
    return found === null || !/^\d+$/.test(found) ? null : Number(found);
  };

  function summaryLine(found, words) {
    if (words[0] === "end") found.end = words.slice(1).join(" ");
    else if (words[0] === "shape") {
      for (const name of ["cpus", "tick", "window", "ticks"]) found[name] = numberAfter(words, name);
    } else if (words[0] === "entries") found.entries = Number(words[1]);
    else if (words[0] === "idle") found.idle = Number(words[1]);
    else if (words[0] === "reply") found.replies.push({ command: Number(words[1]), text: words.slice(2).join(" ") });
    else if (words[0] === "thread") found.threads.push({ name: words[2], ran: Number(words[4]) });
    else if (words[0] === "partition") {
      found.partitions.push({
        id: Number(words[1]), name: words[2], budget: numberAfter(words, "budget"),
        billed: numberAfter(words, "billed"), critical: numberAfter(words, "critical"),
      });
    }
  }

  /** The summary. Budgets sum to all parts, so the parts are their sum. */
  function summary(text) {
    const found = { end: "", partitions: [], threads: [], replies: [] };
    for (const words of rows(text).slice(1)) summaryLine(found, words);
    found.parts = found.partitions.reduce((sum, it) => sum + it.budget, 0);
    return found;
  }

  const KINDS_OF_SHARES = ["most", "free", "critical", "beyond", "least", "short", "changed"];

  function sharesLine(partition, words) {
    if (words[0] === "demand") {
      partition.demand = Number(words[1]);
      partition.had = numberAfter(words, "had");
    } else if (words[0] === "overspent") {
      partition.overspent = { count: Number(words[1]), first: numberAfter(words, "first"),
        worst: numberAfter(words, "worst") };
    } else if (words[0] === "lacked") {
      partition.lacked = { total: Number(words[1]), worst: numberAfter(words, "worst"),
        at: numberAfter(words, "at") };
    } else if (KINDS_OF_SHARES.includes(words[0]) && words[1] !== "none") {
      partition[words[0]] = {
        value: Number(words[1]), allowance: numberAfter(words, "allowance"), window: numberAfter(words, "window"),
      };
    }
  }

  function shares(text) {
    const found = { windows: 0, partitions: [] };
    for (const words of rows(text).slice(1)) {
      if (words[0] === "windows") found.windows = Number(words[1]);
      else if (words[0] === "partition") found.partitions.push({ id: Number(words[1]), name: words[2] });
      else if (found.partitions.length) sharesLine(found.partitions.at(-1), words);
    }
    return found;
  }

  /** A tally `N total T worst X at M`. */
  const tally = (words) => ({
    count: Number(words[0]), total: numberAfter(words, "total"), worst: numberAfter(words, "worst"),
    at: numberAfter(words, "at"),
  });

  function latencyLine(thread, words) {
    if (["wake", "preempted", "cycle"].includes(words[0])) thread[words[0]] = tally(words.slice(1));
    else if (words[0] === "call") thread.calls.push({ channel: words[2], ...tally(words.slice(3)) });
    else if (words[0] === "open") {
      thread.open.push({ kind: words[1], channel: words[1] === "call" ? words[3] : "",
        length: Number(words.at(-3)), at: Number(words.at(-1)) });
    }
  }

  function latency(text) {
    const threads = [];
    for (const words of rows(text).slice(1)) {
      if (words[0] === "thread") threads.push({ name: words[2], calls: [], open: [] });
      else if (threads.length) latencyLine(threads.at(-1), words);
    }
    return { threads };
  }

  function cycles(text) {
    return text.split("\n").slice(1).filter(Boolean).map((line) => {
      const [, begin, end] = line.split(",");
      return { begin: Number(begin), length: Number(end) - Number(begin) };
    });
  }

  /** `responses` of one thread. */
  function responses(text) {
    const found = { bins: [] };
    for (const words of rows(text).slice(1)) {
      if (words[0] === "jobs") found.jobs = Number(words[1]);
      else if (words[0] === "response" && words[1] !== "none") {
        found.best = numberAfter(words, "best");
        found.worst = numberAfter(words, "worst");
        found.at = numberAfter(words, "at");
      } else if (words[0] === "late") found.late = Number(words[1]);
      else if (words[0] === "off") found.off = Number(words[1]);
      else if (words[0] === "expected") found.skipped = numberAfter(words, "skipped");
      else if (words[0] === "bin") found.bins.push(words.slice(1).map(Number));
    }
    return found;
  }

  return { rows, after, numberAfter, summary, shares, latency, cycles, responses };
})();
