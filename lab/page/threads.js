"use strict";
/** The table of threads: what each ran and what it waited for at worst; a time asks why, a heading sorts. */
const Threads = (() => {
  const table = Dom.at("threads");
  const COLUMNS = [
    ["name", "thread"], ["partition", "partition"], ["priority", "prio"], ["ran", "ran"], ["wake", "worst wake"],
    ["preempted", "worst preempted"], ["call", "worst call"], ["cycles", "cycles"], ["cycle", "worst cycle"],
      ["open", "open at the end"],
  ];
  const TEXTS = ["name", "partition"];
  let sort = { by: "wake", down: true };
  let rows = [];

  const worstOf = (tallies) => tallies.reduce((best, it) =>
    (it && it.worst !== null && (!best || it.worst > best.worst) ? it : best), null);

  /** Which partition and priority the text gives a thread; those are the scenario's own words. */
  function given(run, index) {
    const value = (key, otherwise) => {
      const found = Toml.valueOf(Runs.placesOf(run), `thread[${index}].${key}`);
      return found === undefined || found === null ? otherwise : found;
    };
    return { partition: value("partition", "System"), priority: value("priority", 10) };
  }

  function rowOf(run, thread, index) {
    const ran = run.summary && run.summary.threads[index] ? run.summary.threads[index].ran : null;
    const openNow = thread.open.filter((it) => it.kind !== "cycle");
    return {
      name: thread.name, ...given(run, index), ran, wake: thread.wake, preempted: thread.preempted,
        call: worstOf(thread.calls),
      cycles: thread.cycle ? thread.cycle.count : null, cycle: thread.cycle, open: openNow[0] || null,
    };
  }

  const keyOf = (row, by) => {
    const value = row[by];
    if (value === null || value === undefined) return -1;
    if (by === "open") return value.length;
    if (typeof value !== "object") return value;
    return value.worst === null || !value.count ? -1 : value.worst;
  };

  function sorted() {
    const sign = sort.down ? -1 : 1;
    return [...rows].sort((a, b) => {
      const [x, y] = [keyOf(a, sort.by), keyOf(b, sort.by)];
      return sign * (x < y ? -1 : x > y ? 1 : 0);
    });
  }

  function heading([by, text]) {
    const isSorted = sort.by === by;
    const arrow = isSorted ? (sort.down ? " ▾" : " ▴") : "";
    return Dom.make("th", { scope: "col", "aria-sort": isSorted ? (sort.down ? "descending" : "ascending") : "none",
      class: TEXTS.includes(by) ? "text" : "" },
      Dom.make("button", { type: "button", click: () => sortBy(by) }, text + arrow));
  }

  function sortBy(by) {
    sort = sort.by === by ? { by, down: !sort.down } : { by, down: !TEXTS.includes(by) };
    fill();
    const at = COLUMNS.findIndex(([name]) => name === by);
    table.querySelectorAll("th button")[at].focus();
  }

  function time(row, kind) {
    const tally = row[kind];
    if (!tally || !tally.count) return "-";
    if (!tally.worst) return "0";
    return Dom.link(Numbers.ms(tally.worst), () =>
      Why.ask(row.name, Numbers.inside(tally.at, tally.worst), { zoom: true, kind }));
  }

  function openCell(row) {
    const it = row.open;
    if (!it) return "";
    const what = it.kind === "call" ? `call ${it.channel}` : it.kind;
    return Dom.link(`${what} ${Numbers.ms(it.length)}`, () =>
      Why.ask(row.name, Numbers.inside(it.at, it.length), { zoom: true }));
  }

  function cells(row) {
    const partition = [Paints.swatch(row.partition), ` ${row.partition}`];
    const ran = row.ran === null ? "-" : Numbers.ms(row.ran);
    return [
      Dom.make("th", { scope: "row" }, Dom.link(row.name, () => Cycles.choose(row.name))),
        Dom.make("td", { class: "text" }, partition),
      ...[String(row.priority), ran, time(row, "wake"), time(row, "preempted"), time(row, "call"),
        row.cycles === null ? "-" : Numbers.count(row.cycles), time(row, "cycle"), openCell(row)].map((it) =>
          Dom.make("td", {}, it)),
    ];
  }

  function fill() {
    Dom.fill(table, Dom.make("thead", {}, Dom.make("tr", {}, COLUMNS.map(heading))),
      Dom.make("tbody", {}, sorted().map((row) =>
        Dom.make("tr", { class: row.name === Cycles.thread() ? "chosen" : "" }, cells(row)))));
  }

  function show(run) {
    const answer = run.answers.get("latency");
    if (!answer || !Runs.isRan(answer)) return;
    rows = Texts.latency(answer.text).threads.map((thread, i) => rowOf(run, thread, i));
    fill();
  }

  function stopped(run, answer) {
    if (answer.report === "latency") Dom.fill(table,
      Dom.make("caption", {}, "The table took too long, and was stopped."));
  }

  Parts.add(Dom.at("threads-part"), ["latency"]);
  Bus.on("latency", show);
  Bus.on("summary", show);
  Bus.on("stopped", stopped);
  Bus.on("cycles-of", () => rows.length && fill());
})();
