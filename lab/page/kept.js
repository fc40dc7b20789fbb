"use strict";
/** Answers from what a saved page has inside: texts as they are, pictures packed, and `explain` at some moments. */
const Kept = (() => {
  const line = (report, found) => ({ report, ms: 0, ended: "", ...found });

  async function unpacked(data) {
    const bytes = Uint8Array.from(atob(data), (it) => it.charCodeAt(0));
    const stream = new Blob([bytes]).stream().pipeThrough(new DecompressionStream("gzip"));
    return new Response(stream).text();
  }

  /** The kept stretch that is most like the asked one: of nearly its length, and then nearest to it. */
  function nearest(pictures, stretch) {
    const middle = (stretch.from + stretch.to) / 2;
    const length = stretch.to - stretch.from;
    const cost = (it) => Math.abs(Math.log((it.to - it.from) / length)) * 1e6
      + Math.abs((it.from + it.to) / 2 - middle) / length;
    return pictures.reduce((best, it) => (best === null || cost(it) < cost(best) ? it : best), null);
  }

  async function picture(contents, name, options) {
    const pictures = contents.pictures[name];
    if (!pictures.length) return null;
    const asked = "from" in options ? { from: Number(options.from), to: Number(options.to) } : pictures[0];
    return line(name, { status: 0, hint: "", text: await unpacked(nearest(pictures, asked).data) });
  }

  function explain(contents, options) {
    const text = contents.answers[`${options.thread} ${options.at}`];
    return text === undefined ? null : line("explain", { status: 0, hint: "", text });
  }

  /** Of all cycles those of one thread, as the server gives them. */
  function only(found, options) {
    if (!options.only) return found;
    const [head, ...all] = found.text.split("\n");
    return { ...found, text: [head, ...all.filter((it) => it.startsWith(`${options.only},`)), ""].join("\n") };
  }

  async function answer(contents, report, options) {
    if (report in contents.pictures) return picture(contents, report, options);
    if (report === "explain") return explain(contents, options);
    const isKept = report in contents.reports && report !== "responses";
    return isKept ? line(report, only(contents.reports[report], options)) : null;
  }

  /** The same shape as that of the server's answers. */
  function backend(contents) {
    const reports = [...Object.keys(contents.reports), ...Object.keys(contents.pictures), "explain"];
    return {
      isSaved: true,
      zoomStep: 4,
      text: contents.text,
      stopped: contents.stopped,
      moments: () => Object.keys(contents.answers),
      programs: async () => ({ how: "saved", digest: "saved", reports }),
      examples: async () => ({ first: null, examples: [] }),
      snap: (stretch, name) => nearest(contents.pictures[name], stretch) || stretch,
      async run(text, wants, options, signal, take) {
        for (const report of wants) {
          const found = await answer(contents, report, options);
          if (signal.aborted) throw new DOMException("", "AbortError");
          if (found) take(found);
        }
      },
    };
  }

  return { backend };
})();
