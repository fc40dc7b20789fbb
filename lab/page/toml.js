"use strict";
/**
 * Where in a scenario's text a value stands. The program alone judges the text; this reader finds the place of a path such
 * as `thread[3].program[7]`, so that a refusal is shown at its line and a slider writes at its place.
 */
const Toml = (() => {
  class Reader {
    constructor(text) {
      this.text = text;
      this.at = 0;
      this.places = new Map();
      this.lengths = new Map();
    }

    matches(pattern) {
      pattern.lastIndex = this.at;
      const found = pattern.exec(this.text);
      if (found) this.at = pattern.lastIndex;
      return found;
    }

    must(pattern) {
      const found = this.matches(pattern);
      if (!found) throw new Error(`not read on at ${this.at}`);
      return found[0];
    }

    blank() {
      this.matches(/(?:[ \t\r\n]|#[^\n]*)*/y);
    }

    space() {
      this.matches(/[ \t]*/y);
    }

    keys() {
      const keys = [];
      do {
        this.space();
        keys.push(plain(this.must(/[A-Za-z0-9_-]+|"(?:[^"\\\n]|\\.)*"|'[^'\n]*'/y)));
        this.space();
      } while (this.matches(/\./y));
      return keys;
    }

    note(path, start, value) {
      this.places.set(path, { start, end: this.at, value });
    }

    value(path) {
      const start = this.at;
      const value = this.text[start] === "[" ? this.array(path)
        : this.text[start] === "{" ? this.table(path) : this.simple();
      this.note(path, start, value);
    }

    simple() {
      const found = this.must(
        /"""(?:[^\\]|\\[^])*?"""|'''[^]*?'''|"(?:[^"\\\n]|\\.)*"|'[^'\n]*'|[^\s,\]}#]+/y);
      if (found[0] === '"' || found[0] === "'") return plain(found);
      if (found === "true" || found === "false") return found === "true";
      const number = Number(found.replace(/_/g, ""));
      return Number.isNaN(number) ? found : number;
    }

    array(path) {
      this.must(/\[/y);
      let count = 0;
      for (this.blank(); !this.matches(/\]/y); this.blank()) {
        this.value(`${path}[${count}]`);
        count += 1;
        this.blank();
        if (!this.matches(/,/y) && this.text[this.at] !== "]") throw new Error("no comma");
      }
      this.lengths.set(path, count);
      return null;
    }

    table(path) {
      this.must(/\{/y);
      for (this.blank(); !this.matches(/\}/y); this.blank()) {
        this.pair(path);
        this.blank();
        if (!this.matches(/,/y) && this.text[this.at] !== "}") throw new Error("no comma");
      }
      return null;
    }

    pair(path) {
      const inner = [path, ...this.keys()].filter(Boolean).join(".");
      this.must(/=/y);
      this.space();
      this.value(inner);
    }

    /** A heading `[a.b]` or `[[a]]`; answers the path of what stands below it. */
    heading() {
      const start = this.at;
      const several = this.must(/\[\[?/y) === "[[";
      const name = this.keys().map((key, i, all) => (i < all.length - 1 ? this.last(key) : key)).join(".");
      this.must(several ? /\]\]/y : /\]/y);
      if (!several) return name;
      const count = this.lengths.get(name) || 0;
      this.lengths.set(name, count + 1);
      this.note(`${name}[${count}]`, start, null);
      return `${name}[${count}]`;
    }

    last(name) {
      return this.lengths.has(name) ? `${name}[${this.lengths.get(name) - 1}]` : name;
    }

    whole() {
      let path = "";
      for (this.blank(); this.at < this.text.length; this.blank()) {
        if (this.text[this.at] === "[") path = this.heading();
        else this.pair(path);
      }
    }
  }

  const ESCAPES = { n: "\n", t: "\t", r: "\r", b: "\b", f: "\f", e: "\x1b" };

  const unescaped = (text) => text.replace(/\\(u[0-9a-fA-F]{4}|U[0-9a-fA-F]{8}|\s*\n\s*|.)/g, (_, what) => {
    if (/^[uU]./.test(what)) return String.fromCodePoint(parseInt(what.slice(1), 16));
    return /^\s/.test(what) ? "" : ESCAPES[what] || what;
  });

  function plain(text) {
    const quotes = /^("""|'''|"|')/.exec(text);
    if (!quotes) return text;
    const inner = text.slice(quotes[0].length, -quotes[0].length).replace(quotes[0].length === 3 ? /^\n/ : /^$/, "");
    return quotes[0][0] === '"' ? unescaped(inner) : inner;
  }

  /** The places of a text, as far as it can be read. */
  function read(text) {
    const reader = new Reader(text);
    try {
      reader.whole();
    } catch (error) {
      reader.broken = reader.at;
    }
    return { places: reader.places, lengths: reader.lengths, broken: reader.broken };
  }

  /** The place of a path, or that of the nearest thing around it; null where nothing around it is in the text. */
  function placeOf(document, path) {
    for (let rest = path; rest; rest = rest.replace(/(\.[^.[\]]*|\[\d+\]|^[^.[\]]*)$/, "")) {
      if (document.places.has(rest)) return document.places.get(rest);
    }
    return null;
  }

  const lineOf = (text, offset) => text.slice(0, offset).split("\n").length;

  const valueOf = (document, path) => (document.places.get(path) || { value: undefined }).value;

  return { read, placeOf, lineOf, valueOf };
})();
