"use strict";
/** Who answers: the lab's server, or what a saved page has inside. Both have the same shape. */
const Backend = (() => {
  const queryOf = (wants, options) =>
    [`want=${wants.join(",")}`, ...Object.entries(options).map(([key, value]) => `${key}=${value}`)].join("&");

  async function post(path, text, signal) {
    const answer = await fetch(path, { method: "POST", body: new Blob([text]), signal, cache: "no-store" });
    if (!answer.ok && answer.status !== 422) throw new Error(`the lab answered ${answer.status}`);
    return answer;
  }

  /** Hands on each line of an answer as soon as it is there. */
  async function lines(stream, take) {
    const reader = stream.pipeThrough(new TextDecoderStream()).getReader();
    let rest = [];
    for (let { value, done } = await reader.read(); !done; { value, done } = await reader.read()) {
      const pieces = value.split("\n");
      rest.push(pieces.shift());
      while (pieces.length) {
        take(JSON.parse(rest.join("")));
        rest = [pieces.shift()];
      }
    }
  }

  const live = {
    isSaved: false,
    zoomStep: 2,
    programs: async () => (await fetch("programs", { cache: "no-store" })).json(),
    examples: async () => (await fetch("examples", { cache: "no-store" })).json(),
    snap: (stretch) => stretch,
    async run(text, wants, options, signal, take) {
      const answer = await post(`run?${queryOf(wants, options)}`, text, signal);
      await lines(answer.body, take);
    },
    async file(path, text) {
      const answer = await post(path, text);
      if (answer.status === 422) throw new Error((await answer.json()).text || "refused");
      return answer.blob();
    },
  };

  const inside = Dom.at("kept");
  const chosen = inside ? Kept.backend(JSON.parse(inside.textContent)) : live;

  /** Asks one question at a time: a newer one ends the one before. */
  function asker() {
    let controller = null;

    function stop() {
      if (controller) controller.abort();
      controller = null;
    }

    async function ask(text, wants, options, take) {
      stop();
      const mine = new AbortController();
      controller = mine;
      try {
        await chosen.run(text, wants, options, mine.signal, (it) => mine.signal.aborted || take(it));
        return !mine.signal.aborted;
      } catch (error) {
        if (mine.signal.aborted) return false;
        throw error;
      }
    }

    return { ask, stop };
  }

  return { ...chosen, asker };
})();
