"use strict";
/** What to look at first: the program's findings, or lines of `latency` and `shares` as they are where it has none. */
const Findings = (() => {
  const list = Dom.at("findings");
  const about = Dom.at("findings-about");
  const MOST = 6;

  const ms = (text) => Numbers.ms(Number(text));
  const cause = (words, from) => words.slice(words.indexOf(from) + 2).join(" ");

  /** A sentence for each kind of line, and what a click asks. */
  const KINDS = {
    overspent: (w) => ({
      bad: true, at: { moment: Number(Texts.after(w, "first")) },
      text: `${w[2]} overspent its critical budget ${w[3] === "1" ? "once" : `${w[3]} times`}, first at ${ms(Texts.after(w, "first"))}: `
        + `it has ${ms(Texts.after(w, "has"))}${Texts.after(w, "needs") === "-" ? "" : `, and needs ${ms(Texts.after(w, "needs"))}`}.`,
    }),
    lacked: (w) => ({
      bad: true, at: { moment: Number(Texts.after(w, "at")) },
      text: `${w[2]} was in budget with a thread ready, and had no processor: ${ms(w[3])} in all, ${ms(Texts.after(w, "worst"))} at worst.`,
    }),
    held: (w) => ({
      bad: true, at: { thread: w[2], moment: Number(Texts.after(w, "at")) },
      text: `${w[2]} was held by ${w[5]}, a server without budget: ${ms(w[6])} in all, ${ms(Texts.after(w, "worst"))} at worst.`,
    }),
    waited: (w) => ({
      bad: false, at: { thread: w[2], moment: Number(Texts.after(w, "why")) },
      text: `${w[2]} waited ${ms(Texts.after(w, "worst"))} at worst, ${ms(w[3])} in all: ${cause(w, "why")}.`,
    }),
    open: (w) => ({
      bad: true, at: { thread: w[2], moment: Number(Texts.after(w, "since")) },
      text: `${w[2]} still waits for a server at the end, since ${ms(Texts.after(w, "since"))}: ${cause(w, "since")}.`,
    }),
    never: (w) => ({ bad: true, at: { thread: w[2], moment: 0 }, text: `${w[2]} never ran.` }),
    refused: (w) => ({ bad: false, at: null, text: `Command ${w[1]} was answered: ${w.slice(2).join(" ")}.` }),
    end: (w) =>
      ({ bad: true, at: null,
        text: `The run ended by ${w[1] === "limit" ? "its limit of entries" : w.slice(1).join(" ")}.` }),
    none: () => ({ bad: false, at: null, text: "Nothing." }),
  };

  function act(at) {
    if (at.thread) Why.ask(at.thread, at.moment, { zoom: true });
    else Stretch.show(at.moment);
  }

  function item({ bad, at, text }, plain) {
    const words = plain ? Dom.make("code", {}, text) : text;
    return Dom.make("li", { class: bad ? "bad" : "" },
      Dom.make("span", { class: bad ? "sign bad" : "sign", "aria-label": bad ? "problem" : "wait" }, bad ? "!" : "…"),
      at ? Dom.link(words, () => act(at)) : Dom.make("span", {}, words));
  }

  function found(run, answer) {
    about.textContent = "what to look at first";
    const lines = Texts.rows(answer.text).slice(1);
    Dom.fill(list, lines.map((words) => {
      const sentence = KINDS[words[0]];
      return sentence ? item(sentence(words)) : item({ bad: false, at: null, text: words.join(" ") }, true);
    }));
    Runs.painted(run, "findings");
  }

  /** The waits that lines of `latency` name: the line as printed, behind the thread's name. */
  function waitsOf(text) {
    let thread = "";
    return text.split("\n").flatMap((line) => {
      const words = line.split(" ");
      if (words[0] === "thread") thread = words[2];
      const open = words[0] === "open" && words[1] !== "cycle";
      const length = open ? Number(words.at(-3)) : ["wake", "preempted"].includes(words[0])
        ? Texts.numberAfter(words, "worst") : 0;
      if (!length) return [];
      return [{ length, bad: open && words[1] === "call", text: `${thread}: ${line}`,
        at: { thread, moment: Numbers.inside(Number(words.at(-1)), length) } }];
    });
  }

  /** The lines of `shares` that name something lacked or overspent. */
  function lacksOf(text) {
    let partition = "";
    return text.split("\n").flatMap((line) => {
      const words = line.split(" ");
      if (words[0] === "partition") partition = words[2];
      if (!["short", "overspent"].includes(words[0]) || words[1] === "none" || words[1] === "0") return [];
      const first = Texts.numberAfter(words, "first");
      return [{ bad: true, text: `${partition}: ${line}`, at: first === null ? null : { moment: first } }];
    });
  }

  const made = (run, report) => {
    const answer = run.answers.get(report);
    return answer && Runs.isRan(answer) ? answer : null;
  };

  /** Lines as they are, the longest waits first. Nothing is made up here. */
  function lines(run) {
    if (Runs.knows("findings")) return;
    const [latency, shares] = ["latency", "shares"].map((it) => made(run, it));
    const waits = latency ? waitsOf(latency.text).sort((a, b) => b.bad - a.bad || b.length - a.length) : [];
    const all = [...(shares ? lacksOf(shares.text) : []), ...waits].slice(0, MOST);
    const late = ["latency", "shares"].filter((it) => run.answers.has(it) && !made(run, it));
    about.textContent = "lines of shares and latency, the longest waits first";
    const nothing = latency && shares ? "No thread waited, and no partition lacked anything." : "";
    const rest = late.length ? `${late.join(" and ")} took too long, and were stopped.` : all.length ? "" : nothing;
    Dom.fill(list, all.map((it) => item(it, true)), rest ? item({ bad: late.length > 0, at: null, text: rest }) : null);
    if (latency && shares) Runs.painted(run, "findings");
  }

  function stopped(run, answer) {
    if (["latency", "shares"].includes(answer.report)) return lines(run);
    if (answer.report !== "findings") return null;
    return Dom.fill(list, item({ bad: true, at: null, text: "The findings took too long, and were stopped." }));
  }

  Parts.add(Dom.at("findings-part"), ["findings", "latency", "shares"]);
  Bus.on("findings", found);
  Bus.on("latency", lines);
  Bus.on("shares", lines);
  Bus.on("stopped", stopped);
})();
