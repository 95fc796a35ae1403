// Times as the user wants them: in macroticks, or in milliseconds where it was told how long a macrotick is.
import {grouped} from "./words.js";

export class Times {
  constructor() { this.microseconds = 0; }

  get unit() { return this.microseconds ? "ms" : "macroticks"; }

  number(macroticks) {
    if (macroticks === Infinity) return "never";
    if (!this.microseconds) return grouped(macroticks);
    const [whole, part] = (macroticks * this.microseconds / 1000).toFixed(3).split(".");
    return grouped(whole) + ("." + part).replace(/\.?0+$/, "");
  }

  text(macroticks) { return macroticks === Infinity ? "never" : `${this.number(macroticks)} ${this.unit}`; }
}
