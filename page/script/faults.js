// What may come of a request in place of its answer.
import {explained} from "./refusals.js";

// The register refused it, and nothing changed.
export class Refused extends Error {
  constructor(answer) { super(explained(answer)); this.number = answer.no; }
}

// No reply came. Where the request was a change, it may have been carried out.
export class Lost extends Error {
  constructor(isChange) {
    super(isChange ? "No reply came. The change may have been carried out or not: the plan is read again."
      : "The register does not answer. Is the server there?");
    this.isChange = isChange;
  }
}

// The reply does not have the form that the register gives.
export class Strange extends Error {}
