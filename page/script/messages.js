// Messages, questions and hints to the user; and how a request that fails is told.
import {button, byId, make, textField} from "./dom.js";
import {Lost, Refused, Strange} from "./faults.js";
import {bySomebody} from "./meanwhile.js";
import {refresh} from "./reading.js";
import {plural} from "./words.js";

// Refusals that show that the plan is no longer as it is shown.
const OUT_OF_DATE = [10, 11, 14, 15, 16, 17, 18, 19, 21, 22, 24, 25, 27, 29];

// Says something: `good`, `bad`, `warn` or, of what is under way, `wait`.
export function say(kind, text, ...buttons) {
  const box = byId("message");
  clearTimeout(fading);
  if (kind === "good") fading = setTimeout(fade, SHOWN_FOR);
  box.className = "message " + kind;
  box.replaceChildren(make("div", {}, text), ...buttons, button("Close", quiet));
  box.hidden = false;
  box.style.bottom = aboveCell();
}

// Messages stand above the line that tells of a cell, where that is seen.
function aboveCell() {
  const line = byId("cell"), top = line.checkVisibility?.() ? line.getBoundingClientRect().top : 0;
  return top > 0 && top < window.innerHeight ? `${window.innerHeight - top + 6}px` : "";
}

// What was done goes away by itself, unless it is pointed at or has the keyboard.
const SHOWN_FOR = 15_000;
let fading = 0;
function fade() {
  const box = byId("message");
  if (box.matches(":hover, :focus-within")) fading = setTimeout(fade, SHOWN_FOR);
  else quietGood();
}

export const quiet = () => { byId("message").hidden = true; };

// What was done is no longer said where something else is looked at.
export const quietGood = () => { if (byId("message").classList.contains("good")) quiet(); };

// Does what asks the register: says at once what is under way, and then how it failed.
export async function attempt(desk, action, text = "") {
  const {session} = desk;
  desk.busy += 1;
  document.body.setAttribute("aria-busy", "true");
  if (text) say("wait", text);
  try {
    return await action();
  } catch (fault) {
    if (desk.register) await sayFault(desk, fault);
    return undefined;
  } finally {
    if (desk.session === session) ended(desk, text);
  }
}

// What was under way has ended: what waits comes next.
function ended(desk, text) {
  const box = byId("message");
  if (text && box.classList.contains("wait") && box.firstChild?.textContent === text) quiet();
  desk.busy -= 1;
  if (desk.busy) return;
  const next = desk.waiting.shift();
  showWaiting(desk);
  if (next) next();
  else document.body.removeAttribute("aria-busy");
}

// Does something once nothing is under way: at once, or behind what is and what waits already; then it is told that it waits.
export function inTurn(desk, act) {
  if (!desk.busy) return act();
  return new Promise(done => {
    desk.waiting.push(() => done(act()));
    showWaiting(desk);
  });
}

function showWaiting({waiting}) {
  const box = byId("waits");
  box.hidden = !waiting.length;
  box.textContent = waiting.length ? `${plural(waiting.length, "step waits", "steps wait")}` : "";
}

// After a fault nothing that waits is carried out.
function forgetWaiting(desk) {
  const count = desk.waiting.length;
  desk.waiting = [];
  showWaiting(desk);
  return count ? ` ${plural(count, "step that waited was", "steps that waited were")} not carried out.` : "";
}

// A fault with `isOwn` comes after changes of the user's own.
async function sayFault(desk, fault) {
  if (!(fault instanceof Refused || fault instanceof Lost || fault instanceof Strange)) throw fault;
  if (fault.number === 2) { desk.leave("The key is nobody's any more. It may have been changed."); return; }
  const text = (fault instanceof Refused ? `Refused: ${fault.message}` : fault.message) + forgetWaiting(desk);
  say("bad", text);
  if (!desk.plan || !(fault.isChange || fault.isOwn || OUT_OF_DATE.includes(fault.number))) return;
  say("bad", text + await readAgain(desk, fault));
}

async function readAgain(desk, {isChange, isOwn}) {
  try {
    const changed = await refresh(desk, isOwn);
    if (!isChange) return bySomebody(changed);
    return changed ? ` What has changed: ${changed}.` : nothingChanged;
  } catch { return " It could not be read again."; }
}

// What is said where nothing has changed that was read again.
export const nothingChanged = " No frame, no signal, no lane and no variant has changed.";

// Asks in a window. What `content` gives stands between the title and the buttons; with a word, that has to be typed.
export function confirmed(title, content, yes, word = null) {
  return new Promise(done => {
    const dialog = byId("dialog");
    const typed = word ? textField({"aria-label": `Type ${word}`}) : null;
    const go = button(yes, () => dialog.close("yes"), {class: "main", disabled: Boolean(word)});
    if (typed) typed.addEventListener("input", () => { go.disabled = typed.value !== word; });
    const wanted = typed && make("p", {}, `Type ${word} to go on: `, typed), menu = make("menu", {}, button("Cancel", () => dialog.close("")), go);
    openDialog(title, [make("div", {}, content), wanted, menu], () => done(dialog.returnValue === "yes"));
  });
}

export function openDialog(title, content, onclose = null) {
  const dialog = byId("dialog");
  dialog.replaceChildren(make("h2", {id: "dialog-title"}, title), ...content.filter(Boolean));
  dialog.returnValue = "";
  dialog.onclose = onclose;
  dialog.showModal();
}

export function showTip(text, x, y) {
  const tip = byId("tip");
  tip.textContent = text;
  tip.hidden = false;
  const {offsetWidth: wide, offsetHeight: tall} = tip;
  tip.style.left = `${Math.max(4, Math.min(x + 14, window.innerWidth - wide - 8))}px`;
  tip.style.top = `${y + 18 + tall > window.innerHeight ? y - tall - 10 : y + 18}px`;
}

export const hideTip = () => { byId("tip").hidden = true; };
