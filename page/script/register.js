// The calls of the register's API, by addresses relative to the page's own path.
import {Lost, Refused, Strange} from "./faults.js";
import {isRefusal} from "./refusals.js";

const SECONDS = 60;

export class Register {
  constructor(key) {
    this.key = key;
    this.changed = Promise.resolve();
    this.reads = new Set();
  }

  // Reads go side by side. A change waits for all that was asked before it, and what is asked behind it waits for the change.
  ask(method, path, body, isChange = method !== "GET") {
    const turn = Promise.all(method === "GET" ? [this.changed] : [this.changed, ...this.reads]).then(() => this.send(method, path, body, isChange));
    const end = turn.catch(() => {});
    if (method === "GET") {
      this.reads.add(end);
      end.then(() => this.reads.delete(end));
    } else this.changed = end;
    return turn;
  }

  async send(method, path, body, isChange) {
    const {status, text} = await reply(method, path, body, {"X-Office-Key": this.key}).catch(() => { throw new Lost(isChange); });
    if (status === 200) return text;
    const answer = parsed(text);
    if (isRefusal(answer)) throw new Refused(answer);
    if (status === 502 || status === 504) throw new Lost(isChange);
    throw new Strange(`The server answered with status ${status}, and no refusal of the register.`);
  }

  read(path) { return this.ask("GET", path); }
  async command(request) { return answerOf("done", await this.ask("POST", "commands", JSON.stringify(request))); }

  // What would become of each row of a file, and what comes of it.
  async tried(variant, file, {replaces, isWhole}) {
    return answerOf("try", await this.ask(replaces ? "PUT" : "POST", `variants/${variant}/tries${isWhole ? "/whole" : ""}`, file, false));
  }

  // Where wishes would go.
  async proposed(variant, file, replaces) { return answerOf("propose", await this.ask(replaces ? "PUT" : "POST", `variants/${variant}/proposals`, file, false)); }

  async imported(variant, label, file) {
    return answerOf("imported", await this.ask("POST", `variants/${variant}/imports/${label}`, file));
  }

  async replaced(variant, file, isWhole) {
    return answerOf("replaced", await this.ask("PUT", `variants/${variant}/rows${isWhole ? "/whole" : ""}`, file));
  }
}

async function reply(method, path, body, headers) {
  const answer = await fetch("v1/" + path, {method, body, headers, cache: "no-store", credentials: "same-origin", redirect: "error",
    referrerPolicy: "no-referrer", signal: AbortSignal.timeout(SECONDS * 1000)});
  return {status: answer.status, text: await answer.text()};
}

function parsed(text) {
  try { return JSON.parse(text); } catch { return null; }
}

// An answer that says this word; imports and replacements say how many rows they have. After another one a change may have been carried out.
function answerOf(word, text) {
  const answer = parsed(text), isOwn = answer?.ok === word && (!word.endsWith("ed") || Number.isInteger(answer.rows));
  if (!isOwn) throw Object.assign(new Strange("The server's answer is none of the register's."), {isChange: word !== "try" && word !== "propose"});
  return answer;
}

// Whether the register is there, as a fault's words. A browser opens a connection more than it needs with each page, and leaves it silent;
// this request, which has no key, takes that connection.
export async function absence() {
  try {
    const {status} = await reply("GET", "variants", undefined, {});
    return status === 401 ? "" : `The register does not answer: status ${status}.`;
  } catch { return "The register does not answer."; }
}
