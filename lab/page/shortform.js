"use strict";
/**
 * The short form of tasks: a text with periods and deadlines, which the program `apstasks` expands to a scenario. The page
 * runs the expansion, and asks for each task the jobs that its plan names.
 */
const ShortForm = (() => {
  const place = Dom.at("tasks");
  const asker = Backend.asker();
  const planAsker = Backend.asker();
  let rows = [];

  /** A short form has a duration where a scenario has ticks. */
  const isOne = (places) => places.places.has("duration") && !places.places.has("ticks");

  /** Hands on the scenario of a text: the text itself, or its expansion. */
  async function expanded(source, use) {
    asker.stop();
    planAsker.stop();
    if (!Runs.knows("scenario") || !isOne(Editor.places())) {
      Dom.show(place, false);
      return use(source, source);
    }
    return asker.ask(source, ["scenario"], {}, (answer) => {
      if (answer.status === 0 && !answer.ended) use(answer.text, source);
      else Runs.refuseSource(source, answer);
    }).catch((error) => Bus.tell("failed", error));
  }

  /** The options of a line of the plan: `NAME responses --thread T --sender S ..`. */
  function optionsOf(words) {
    const options = {};
    for (let i = 2; i + 1 < words.length; i += 2) options[words[i].slice(2)] = words[i + 1];
    return options;
  }

  /** The tasks of the plan, one after the other, each with its jobs. */
  async function plan(run) {
    if (run.source === run.text || !Runs.knows("plan") || !Runs.knows("responses")) return;
    let lines = [];
    await planAsker.ask(run.source, ["plan"], {}, (answer) => {
      if (answer.status === 0) lines = Texts.rows(answer.text);
    });
    rows = lines.map((words) => ({ name: words[0], options: optionsOf(words), jobs: null }));
    for (const row of rows) {
      if (run !== Runs.newest()) return;
      await planAsker.ask(run.text, ["responses"], { ...Runs.options(), ...row.options }, (answer) => {
        if (Runs.isRan(answer)) row.jobs = Texts.responses(answer.text);
      });
      fill();
    }
    Bus.tell("tasks");
  }

  const count = (value) => (value === undefined || value === null ? "-" : Numbers.count(value));

  function cells({ name, options, jobs }) {
    const deadline = options.deadline ? Numbers.ms(Number(options.deadline)) : "-";
    if (!jobs || jobs.worst === undefined) return [name, deadline, jobs ? "0" : "..", "-", "-", "-", "-"];
    const worst = Dom.link(Numbers.ms(jobs.worst), () =>
      Why.ask(options.thread, Numbers.inside(jobs.at, jobs.worst), { zoom: true, kind: "response" }));
    return [name, deadline, count(jobs.jobs), worst, count(jobs.late), count(jobs.skipped), count(jobs.off)];
  }

  function fill() {
    Dom.show(place, rows.length > 0);
    const heads = ["task", "deadline", "jobs", "worst response", "late", "skipped", "off the plan"];
    Dom.fill(place, Dom.make("h2", {}, "Tasks ", Dom.make("small", {}, "as their plan names them; a time asks why")),
      Dom.make("table", {}, Dom.make("thead", {}, Dom.make("tr", {}, heads.map((it) => Dom.make("th", { scope: "col" }, it)))),
        Dom.make("tbody", {}, rows.map((row) =>
          Dom.make("tr", { class: row.jobs && row.jobs.late ? "bad" : "" }, cells(row).map((it) => Dom.make("td", {}, it)))))));
  }

  Parts.add(place, ["tasks", "accepted"]);
  Bus.on("accepted", plan);

  return { expanded };
})();
