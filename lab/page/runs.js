"use strict";
/** Runs of the scenario: which text runs, which one was accepted last, and what the programs answered. */
const Runs = (() => {
  /** Statuses of a run that was made: to its horizon, to a reboot, to its limit of entries. */
  const RAN = [0, 3, 6];
  const REFUSED_WORDS = 1;
  const NO_MEMORY = 7;
  const NO_ANSWER = 125;
  const TEXTS = ["summary", "findings", "shares", "latency", "lint", "promise"];
  const PALE_AFTER = 150;
  const SLOW_AFTER = 1000;

  const asker = Backend.asker();
  let programs = { how: "none", digest: "", reports: [] };
  let newest = null;
  let shown = null;
  let limit = null;
  let timers = [];

  const isRan = (answer) => !answer.ended && RAN.includes(answer.status);
  const isStopped = (answer) => answer.ended !== "" || [NO_MEMORY, NO_ANSWER].includes(answer.status);
  const knows = (report) => programs.reports.includes(report);
  const isQuick = () => programs.how === "quick";
  const options = () => (limit === null ? {} : { limit });

  function stopTimers() {
    timers.forEach(clearTimeout);
    timers = [];
  }

  function startTimers(run) {
    stopTimers();
    timers = [
      setTimeout(Parts.fade, PALE_AFTER),
      setTimeout(() => Bus.tell("slow", run), SLOW_AFTER),
    ];
  }

  /** One answer of a run. The first one that was made says that the text is accepted. */
  function take(run, answer) {
    if (run !== newest || answer.status === REFUSED_WORDS) return;
    if (isStopped(answer)) {
      run.answers.set(answer.report, answer);
      Bus.tell("stopped", run, answer);
    } else if (!isRan(answer)) {
      refuse(run, answer);
    } else {
      accept(run, answer);
    }
  }

  function refuse(run, answer) {
    if (run.refused && !answer.hint) return;
    run.refused = true;
    asker.stop();
    stopTimers();
    Parts.fade();
    Bus.tell("refused", run, answer);
  }

  /** A text that never became a scenario. */
  function refuseSource(source, answer) {
    newest = { text: null, source, answers: new Map(), summary: null, refused: false };
    Parts.wait();
    refuse(newest, answer);
  }

  /** Where the values of a run's scenario are in its text. */
  function placesOf(run) {
    run.places = run.places || Toml.read(run.text);
    return run.places;
  }

  function accept(run, answer) {
    run.answers.set(answer.report, answer);
    if (answer.report === "summary") run.summary = Texts.summary(answer.text);
    if (shown !== run) {
      shown = run;
      Bus.tell("accepted", run);
    }
    Bus.tell(answer.report, run, answer);
  }

  /** Runs a text, which `source` is the editor's text for. `edited` is when that was written. */
  function start(text, wants = TEXTS, edited = performance.now(), source = text) {
    const run = { text, source, answers: new Map(), summary: null, edited, refused: false };
    newest = run;
    Parts.wait();
    startTimers(run);
    Bus.tell("start", run);
    ask(run, wants.filter(knows));
  }

  /** One more report of the newest run, or the first one of another text. */
  function more(text, report) {
    if (!newest || newest.text !== text) return start(text, [report]);
    return ask(newest, [report]);
  }

  async function ask(run, wants) {
    if (!wants.length) return end(run);
    try {
      if (await asker.ask(run.text, wants, options(), (answer) => take(run, answer))) end(run);
    } catch (error) {
      stopTimers();
      Bus.tell("failed", error);
    }
    return null;
  }

  function end(run) {
    if (run !== newest) return;
    stopTimers();
    if (!run.refused) Parts.fade();
    Bus.tell("done", run);
  }

  /** Ends what is still running; what there is stays. */
  function stop() {
    asker.stop();
    if (newest) {
      Bus.tell("stop", newest);
      end(newest);
    }
  }

  /** Another scenario is run with the programs' own limit again. */
  function forgetLimit() {
    limit = null;
  }

  function raiseLimit(most) {
    limit = most;
    start(newest.text, TEXTS, performance.now(), newest.source);
  }

  /** Asks which programs answer. Where they are others than before, nothing of the old ones is shown as theirs. */
  async function lookAtPrograms() {
    const found = await Backend.programs();
    const changed = found.digest !== programs.digest || found.how !== programs.how;
    const first = programs.digest === "";
    programs = found;
    if (changed) Bus.tell("programs", programs);
    if (changed && !first && newest) start(newest.text, isQuick() ? [] : TEXTS, performance.now(), newest.source);
  }

  /** Notes, once it is painted, how long after the edit a part was there. */
  function painted(run, part) {
    requestAnimationFrame(() => setTimeout(() => {
      document.body.dataset[part] = Math.round(performance.now() - run.edited);
      Bus.tell("painted", run, part);
    }));
  }

  return {
    take, start, more, refuseSource, placesOf, painted, stop, forgetLimit, raiseLimit, lookAtPrograms,
    knows, isQuick, isRan, isStopped, options,
    shown: () => shown, newest: () => newest, how: () => programs.how,
  };
})();
