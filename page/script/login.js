// The key: it is asked once, and kept in memory; by a tick also in the tab's storage, so that the page may be loaded again.
import {noSuch, showWanted, wantedBy} from "./address.js";
import {inTree} from "./cluster.js";
import {byId, listen} from "./dom.js";
import {Lost, Refused, Strange} from "./faults.js";
import {hideTip, quiet, say} from "./messages.js";
import {choose, enter} from "./reading.js";
import {absence} from "./register.js";

// Several registers may lie behind one proxy, so the path is named too.
const STORED = "slotplan key " + location.pathname;

export function login(desk) {
  listen("login-form", "submit", event => {
    event.preventDefault();
    const key = byId("key").value.trim() || desk.unansweredKey;
    byId("key").value = "";
    if (/^[A-Za-z0-9]{8,64}$/.test(key)) begin(desk, key, byId("keep").checked);
    else byId("login-fault").textContent = "A key has 8 to 64 letters and digits.";
  });
  desk.on("left", () => showLogin(desk.whyLeft));
  const kept = stored(storage => storage.getItem(STORED));
  if (kept) begin(desk, kept, true);
  else {
    byId("key").focus();
    absence().then(fault => { if (fault && !desk.register) byId("login-fault").textContent = fault; });
  }
}

// Some browsers give a page no storage.
export function stored(act) {
  try { return act(sessionStorage); } catch { return null; }
}

// Shows that the register is asked, until it has answered.
function showAsking(isAsking) {
  byId("login-busy").hidden = !isAsking;
  for (const control of ["key", "open-plan"]) byId(control).disabled = isAsking;
}

async function begin(desk, key, isKept) {
  byId("login-fault").textContent = "";
  showAsking(true);
  try {
    await enter(desk, key);
    desk.unansweredKey = "";
    // A supplier's plan is all its own: its frames are told apart.
    desk.look.colourBy = desk.isIntegrator ? "supplier" : "frame";
    if (isKept) stored(storage => storage.setItem(STORED, key));
    const wanted = wantedBy(location.hash), inOrder = inTree(desk);
    const first = inOrder.find(({name}) => name === wanted.variant) ?? inOrder.findLast(variant => !variant.isReleased) ?? inOrder.at(-1);
    byId("login").hidden = true;
    byId("app").hidden = false;
    if (first) {
      say("wait", `Reading ${first.name} ...`);
      await choose(desk, first.name);
      quiet();
    } else say("warn", desk.isIntegrator ? "There is no variant yet. Open one." : "There is no variant yet. The integrator opens one.");
    desk.view = first ? "plan" : "manage";
    if (first?.name === wanted.variant) showWanted(desk, wanted);
    desk.show(desk.view);
    if (first && wanted.variant && first.name !== wanted.variant) say("warn", `${noSuch(wanted.variant)} ${first.name} is shown.`);
    desk.tell("entered");
  } catch (fault) {
    if (!(fault instanceof Refused || fault instanceof Lost || fault instanceof Strange)) throw fault;
    desk.leave(fault.message + (fault instanceof Lost ? " The key is kept: press the button to ask again." : ""));
    // A key that was not refused may be shown again without being typed.
    if (fault instanceof Lost) desk.unansweredKey = key;
    if (fault instanceof Lost && isKept) stored(storage => storage.setItem(STORED, key));
  } finally { showAsking(false); }
}

function showLogin(why) {
  stored(storage => storage.removeItem(STORED));
  quiet();
  hideTip();
  if (byId("dialog").open) byId("dialog").close("");
  byId("dialog").replaceChildren();
  byId("message").replaceChildren();
  byId("app").hidden = true;
  byId("login").hidden = false;
  byId("login-fault").textContent = why;
  document.title = "slotplan";
  history.replaceState(null, "", location.pathname);
  byId("key").value = "";
  byId("key").focus();
}
