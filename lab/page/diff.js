"use strict";
/** What differs: changed lines of two texts, and numbers of two runs. */
const Diff = (() => {
  const MOST_LINES = 400;

  /** How long the longest common part of two lists is, from each place on. */
  function common(a, b) {
    const table = Array.from({ length: a.length + 1 }, () => new Uint32Array(b.length + 1));
    for (let i = a.length - 1; i >= 0; i -= 1) {
      for (let j = b.length - 1; j >= 0; j -= 1) {
        table[i][j] = a[i] === b[j] ? table[i + 1][j + 1] + 1 : Math.max(table[i + 1][j], table[i][j + 1]);
      }
    }
    return table;
  }

  function ends(a, b) {
    let begin = 0;
    while (begin < a.length && begin < b.length && a[begin] === b[begin]) begin += 1;
    let end = 0;
    while (end < a.length - begin && end < b.length - begin
      && a[a.length - 1 - end] === b[b.length - 1 - end]) end += 1;
    return [begin, end];
  }

  /** Changed lines: each with its number now, what it was and what it is. */
  function lines(before, now) {
    const [a, b] = [before.split("\n"), now.split("\n")];
    const [begin, end] = ends(a, b);
    const [x, y] = [a.slice(begin, a.length - end), b.slice(begin, b.length - end)];
    if (x.length > MOST_LINES || y.length > MOST_LINES) {
      return [{ line: begin + 1, before: `${x.length} lines`, now: `${y.length} lines` }];
    }
    return blocks(x, y, common(x, y)).flatMap(({ i, j, was, is }) =>
      Array.from({ length: Math.max(was.length, is.length) }, (_, k) =>
        ({ line: begin + j + k + 1, before: was[k] || "", now: is[k] || "" })));
  }

  function blocks(x, y, table) {
    const found = [];
    let [i, j] = [0, 0];
    while (i < x.length || j < y.length) {
      if (i < x.length && j < y.length && x[i] === y[j]) {
        i += 1;
        j += 1;
      } else {
        const block = { i, j, was: [], is: [] };
        while ((i < x.length || j < y.length) && !(i < x.length && j < y.length && x[i] === y[j])) {
          if (j >= y.length || (i < x.length && table[i + 1][j] >= table[i][j + 1])) block.was.push(x[i++]);
          else block.is.push(y[j++]);
        }
        found.push(block);
      }
    }
    return found;
  }

  const WORSE_WHEN = { more: 1, less: -1, moved: 0 };

  /** All numbers that are compared: of whom, what, how much, and which direction is worse. */
  function numbers(run) {
    const facts = [];
    const add = (of, what, value, worse, isTime = true) =>
      facts.push({ key: `${of} ${what}`, of, what, value, worse: WORSE_WHEN[worse], isTime });
    const text = (name) => (run.answers.has(name) && Runs.isRan(run.answers.get(name)) ? run.answers.get(name).text
      : null);
    if (text("latency") !== null) Texts.latency(text("latency")).threads.forEach((it) => ofThread(it, add));
    if (text("shares") !== null) Texts.shares(text("shares")).partitions.forEach((it) => ofPartition(it, add));
    if (run.summary) {
      for (const it of run.summary.partitions) {
        add(it.name, "used", it.billed, "moved");
        add(it.name, "budget", it.budget, "moved", false);
      }
      for (const it of run.summary.threads) add(it.name, "ran", it.ran, "moved");
    }
    return facts;
  }

  function ofThread(it, add) {
    const waits = it.open.filter((open) => open.kind === "call").length;
    add(it.name, "waits at the end", waits, "more", false);
    if (it.cycle) {
      add(it.name, "cycles", it.cycle.count, "less", false);
      add(it.name, "worst cycle", it.cycle.worst || 0, "more");
    }
    for (const kind of ["wake", "preempted"]) {
      if (it[kind]) add(it.name, `worst ${kind}`, it[kind].worst || 0, "more");
    }
    for (const call of it.calls) add(it.name, `worst call ${call.channel}`, call.worst || 0, "more");
  }

  function ofPartition(it, add) {
    if (it.short) add(it.name, "lacked at worst", it.short.value, "more");
    if (it.overspent) add(it.name, "overspent", it.overspent.count, "more", false);
    if (it.most) add(it.name, "most in a window", it.most.value, "moved");
    if (it.least) add(it.name, "least in a window", it.least.value, "moved");
  }

  const relative = (it) => Math.abs(it.now - it.before) / Math.max(it.before, it.now, 1);
  const RANK = { 1: 0, "-1": 1, 0: 2 };

  /** Differences of two runs: worse first, by relative size; then better; then what only moved. Counts stand before times. */
  function ofRuns(before, now) {
    const old = new Map(numbers(before).map((it) => [it.key, it]));
    return numbers(now).filter((it) => old.has(it.key) && old.get(it.key).value !== it.value).map((it) => {
      const made = { ...it, before: old.get(it.key).value, now: it.value };
      return { ...made, sign: Math.sign(made.now - made.before) * it.worse };
    }).sort((a, b) => RANK[a.sign] - RANK[b.sign] || a.isTime - b.isTime || relative(b) - relative(a));
  }

  return { lines, ofRuns };
})();
