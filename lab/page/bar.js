"use strict";
/** The bar on top: how the run ended, which programs answered, examples, files to keep, saved pages. */
const Bar = (() => {
  const ended = Dom.at("ended");
  const badge = Dom.at("programs");
  const stop = Dom.at("stop");
  const MOST_ENTRIES = 4000000;
  let isSlow = false;

  const SAID = {
    proved: ["", ""],
    given: ["not judged",
      "the programs are those of the folder that was named; whether they are proved wasn't judged"],
    quick: ["unproved, about a minute a report", "./prove builds the proved programs"],
    none: ["no program was found", "./prove builds the proved programs"],
    saved: ["saved page", "a run as it was saved; nothing is run here"],
  };

  const FILES = {
    "": "Download", scenario_text: "the scenario", journal: "journal of the run", cycles: "cycles (CSV)",
      csv: "usage by tick (CSV)",
    trace: "trace for Perfetto", vcd: "waves for GTKWave", gtkw: "its save file", threads: "picture of threads",
    timeline: "picture of processors", usage: "picture of usage",
  };

  function say(...what) {
    Dom.fill(ended, ...what);
  }

  function endOf(summary) {
    if (summary.end === "horizon") return `, ${Numbers.ms(summary.ticks * summary.tick)} on ${Numbers.several(summary.cpus, "processor")}`;
    if (summary.end === "limit") return " on " + Numbers.several(summary.cpus, "processor")
      + "; the run ended by its limit of entries";
    const partition = summary.partitions[Number(summary.end.split(" ")[1])];
    return ` on ${Numbers.several(summary.cpus, "processor")}; the run ended by a reboot for ${partition ? partition.name : summary.end}`;
  }

  const more = (summary) => summary.end === "limit" && summary.entries < MOST_ENTRIES && !Backend.isSaved
    && Dom.link("run on to 4,000,000", () => Runs.raiseLimit(MOST_ENTRIES));

  function told(run, behind) {
    if (!run.summary) return say(behind || "");
    const text = `${Numbers.several(run.summary.entries, "entry", "entries")}${endOf(run.summary)}`;
    return say(Dom.make("span", {}, text), more(run.summary) || null, behind ? Dom.make("small", {}, ` · ${behind}`)
      : null);
  }

  /** Says whether something is still being made, and offers to stop that. */
  function setSlow(value) {
    isSlow = value;
    Dom.show(stop, value && !Backend.isSaved);
  }

  const still = () => (isSlow ? "still running" : "");

  function done(run) {
    setSlow(false);
    if (!run.refused && run === Runs.shown()) Runs.painted(run, "texts");
  }

  /** How long the edit took, once all is painted. */
  function painted(run) {
    if (run.refused || run !== Runs.newest() || Backend.isSaved) return;
    told(run, `shown ${Math.max(document.body.dataset.texts || 0, document.body.dataset.picture || 0)} ms after the edit`);
  }

  function refused() {
    setSlow(false);
    say(Dom.make("b", { class: "sign bad" }, "!"), " refused; what is shown is of the last text that was accepted");
  }

  function stopped(run, answer) {
    const why = { late: "took too long", long: "wrote too much", gone: "was ended",
      absent: "is missing" }[answer.ended];
    say(Dom.make("b", { class: "sign bad" }, "!"),
      ` ${answer.report} ${why || answer.hint.trim() || "has no answer"}`);
    ended.title = ended.textContent;
  }

  function programs(found) {
    [badge.textContent, badge.title] = SAID[found.how];
    Dom.show(badge, badge.textContent !== "");
    Dom.show(Dom.at("run"), found.how === "quick");
    Dom.at("save").disabled = found.how === "quick";
    files();
  }

  function files() {
    const known = Object.keys(FILES).filter((it) => it === "" || it === "scenario_text" || Runs.knows(it));
    Dom.fill(Dom.at("download"), ...known.map((it) => Dom.make("option", { value: it }, FILES[it])));
  }

  function keepFile(blob, name) {
    const address = URL.createObjectURL(blob);
    Dom.make("a", { href: address, download: name }).click();
    setTimeout(() => URL.revokeObjectURL(address), 10000);
  }

  const SUFFIX = { cycles: "csv", csv: "csv", trace: "json", vcd: "vcd", gtkw: "gtkw", threads: "svg",
    timeline: "svg", usage: "svg" };

  const queryOf = (options) => Object.entries(options).map(([key, value]) => `${key}=${value}`).join("&");

  async function download(event) {
    const report = event.target.value;
    event.target.value = "";
    const name = Lab.name() || "run";
    if (report === "scenario_text") return keepFile(new Blob([Editor.text()]), `${name}.toml`);
    const stretch = ["csv", "threads", "timeline", "usage"].includes(report) ? Stretch.options() : {};
    const query = queryOf({ report, ...Runs.options(), ...stretch });
    return guarded("downloading", async () =>
      keepFile(await Backend.file(`file?${query}`, Runs.newest().text), `${name}-${report}.${SUFFIX[report] || "txt"}`));
  }

  async function guarded(what, action) {
    say(`${what} ..`);
    try {
      await action();
      told(Runs.shown() || { summary: null }, "");
    } catch (error) {
      say(Dom.make("b", { class: "sign bad" }, "!"), ` ${what} failed: ${error.message}`);
    }
    return null;
  }

  const save = () => guarded("saving", async () =>
    keepFile(await Backend.file(`save?${queryOf(Runs.options())}`, Runs.newest().text), `${Lab.name() || "run"}.html`));

  Dom.at("download").addEventListener("change", download);
  Dom.at("save").addEventListener("click", save);
  stop.addEventListener("click", () => Runs.stop());
  Bus.on("programs", programs);
  Bus.on("summary", (run) => told(run, still()));
  Bus.on("slow", (run) => {
    setSlow(true);
    if (run.summary) told(run, still());
    else say(still());
  });
  Bus.on("start", () => setSlow(false));
  Bus.on("done", done);
  Bus.on("painted", painted);
  Bus.on("refused", refused);
  Bus.on("stopped", stopped);
  Bus.on("failed", (error) => say(Dom.make("b", { class: "sign bad" }, "!"),
    ` the lab doesn't answer: ${error.message}`));

  return { say };
})();
