"use strict";
/** Numbers as texts: whole nanoseconds as milliseconds, percents rounded down, and moments that are easy to read. */
const Numbers = (() => {
  /** Exact: no digit is lost or added. */
  function plainMs(ns) {
    const sign = ns < 0 ? "−" : "";
    const size = Math.abs(ns);
    const rest = String(size % 1e6).padStart(6, "0").replace(/0+$/, "");
    return `${sign}${Math.floor(size / 1e6)}${rest ? `.${rest}` : ""}`;
  }

  const ms = (ns) => `${plainMs(ns)} ms`;

  function percent(part, whole) {
    if (!whole) return "- %";
    const tenths = (BigInt(part) * 1000n) / BigInt(whole);
    return `${tenths / 10n}.${tenths % 10n} %`;
  }

  const count = (number) => String(number).replace(/\B(?=(\d{3})+$)/g, ",");

  const several = (number, one, more = `${one}s`) => `${count(number)} ${number === 1 ? one : more}`;

  /** A budget in parts per hundred, or per thousand, as a percent. */
  const budget = (value, parts) => (parts === 1000 ? `${Math.floor(value / 10)}.${value % 10} %` : `${value} %`);

  /** Of the numbers from low to high the multiple of the greatest power of ten, of these the one nearest the middle. */
  function roundest(low, high) {
    let step = 1e13;
    while (Math.ceil(low / step) * step > high) step /= 10;
    const middle = Math.floor((low + high) / 2);
    const near = Math.min(Math.floor(middle / step) * step, Math.floor(high / step) * step);
    return Math.max(Math.ceil(low / step) * step, near);
  }

  /** A moment in the middle half of a wait: at its begin the reason doesn't show yet. */
  const inside = (begin, length) =>
    roundest(begin + Math.floor(length / 4), begin + Math.floor((length * 3) / 4));

  /** The ns of a number of ms as a person types it, or null. */
  function nsOf(text) {
    const found = /^\s*(\d{1,8})(?:\.(\d{1,6}))?\s*$/.exec(text);
    return found ? Number(found[1]) * 1e6 + Number((found[2] || "").padEnd(6, "0")) : null;
  }

  return { ms, plainMs, percent, count, several, budget, roundest, inside, nsOf };
})();
