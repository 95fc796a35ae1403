// The lanes that are granted and revoked by clicks, by drawing over many of them, and by a list of changes that is sent one by one.
import {button} from "./dom.js";
import {bySomebody} from "./meanwhile.js";
import {attempt, inTurn, quiet, say} from "./messages.js";
import {channelOf, laneText, slotOf} from "./plan.js";
import {reread} from "./reading.js";
import {done} from "./steps.js";
import {plural} from "./words.js";

// Begins to grant lanes to a node, or ends it.
export function setGranting(desk, isOn) {
  desk.granting = isOn ? {lanes: []} : null;
  if (isOn) desk.room = null;
  desk.tell("mode");
}

export const granted = desk => desk.nodes[desk.grantTo] ?? null;
const holds = (grant, holder) => grant?.node === holder.node && grant.supplier === holder.supplier;
const of = ({node, supplier}) => `${node} of ${supplier}`;

// The lanes between two cells, on the channels between theirs.
export function pickBetween(desk, sheet, one, other) {
  const [first, last] = [Math.min(one.column, other.column), Math.max(one.column, other.column)];
  const sides = [Math.min(one.side, other.side), Math.max(one.side, other.side)];
  desk.granting.lanes = sheet.columns.slice(first, last + 1).filter(column => !column.to)
    .flatMap(column => sheet.lanes(column).filter(({side}) => side >= sides[0] && side <= sides[1]).map(({lane}) => lane));
  desk.tell("lanes");
}

// What would change where these lanes are given to a node, and the lanes that others hold.
export function wantedOf(desk, lanes) {
  const to = granted(desk), free = lanes.filter(lane => !desk.plan.grants[lane]), own = lanes.filter(lane => holds(desk.plan.grants[lane], to));
  const changes = (act, some) => some.map(lane => ({act, lane, ...to}));
  return {grants: changes("grant", free), revokes: changes("revoke", own), others: lanes.length - free.length - own.length};
}

// A click or Enter: on lanes that were drawn over it is the mode's bar that asks; else the lane is granted, or revoked.
export function grantPicked(desk, cell) {
  if (desk.granting.lanes.length > 1) {
    desk.granting.lanes = [];
    desk.tell("lanes");
    return;
  }
  const to = granted(desk), {lane} = cell, grant = desk.plan.grants[lane];
  if (!to) return;
  if (!grant) send(desk, [{act: "grant", lane, ...to}]);
  else if (holds(grant, to)) send(desk, [{act: "revoke", lane, ...to}]);
  else {
    say("warn", `Slot ${laneText(lane)} is held by ${of(grant)}.`,
      button(`Revoke it from ${grant.node}`, () => send(desk, [{act: "revoke", lane, ...grant}])));
  }
}

export const revoke = (desk, lane) => send(desk, [{act: "revoke", lane, ...desk.plan.grants[lane]}]);

const requestOf = (variant, {act, lane, supplier, node}) =>
  ({do: act, variant, slot: slotOf(lane), channel: channelOf(lane), supplier, ...(act === "grant" ? {node} : {})});

const inverse = changes => changes.map(change => ({...change, act: change.act === "grant" ? "revoke" : "grant"})).reverse();

export const changeText = ({act, lane, ...holder}) => act === "grant" ? `Slot ${laneText(lane)} is granted to ${of(holder)}.`
  : `Slot ${laneText(lane)} is no longer granted to ${of(holder)}.`;

// Sends changes one by one, up to the first that is refused; then it says how far they came. `count` is told of each that is carried out.
async function carry(desk, changes, count) {
  const {variant} = desk;
  let sent = 0;
  try {
    for (const change of changes) {
      if (changes.length > 1) say("wait", `Change ${sent + 1} of ${changes.length} is sent ...`);
      await desk.register.command(requestOf(variant, change));
      count(sent += 1);
    }
  } catch (fault) {
    if (changes.length > 1) fault.message = `${howFar(changes, sent, fault.isChange)} ${fault.message}`;
    if (sent) fault.isOwn = ownOf(desk, changes.slice(0, sent));
    throw fault;
  }
  return bySomebody(await reread(desk, {isOwn: ownOf(desk, changes)}));
}

const labelOf = changes => changes.length === 1 ? changeText(changes[0]).slice(0, -1) : `${plural(changes.length, "change")} of grants, from ${laneText(changes[0].lane)} on`;
const stepOf = changes => ({label: labelOf(changes), changes, turn: (desk, history, isBack) => turnChanges(desk, history, changes, isBack)});

// Takes changes back, or does them again. Where some of them were carried out and then one is refused, these are a step of their own.
async function turnChanges(desk, history, changes, isBack) {
  const wanted = isBack ? inverse(changes) : changes;
  let count = 0;
  try { return await carry(desk, wanted, sent => { count = sent; }); } catch (fault) {
    const [turned, left] = isBack ? [changes.slice(changes.length - count), changes.slice(0, changes.length - count)] : [changes.slice(0, count), changes.slice(count)];
    if (count) history.part(isBack, stepOf(turned), stepOf(left));
    throw fault;
  }
}

// Sends changes as a step. Gives the number that were carried out.
export const send = (desk, changes) => inTurn(desk, () => sendNow(desk, changes));

function sendNow(desk, changes) {
  let count = 0;
  return attempt(desk, async () => {
    try {
      const others = await carry(desk, changes, sent => { count = sent; });
      done(desk, (changes.length === 1 ? changeText(changes[0]) : `All ${plural(count, "change")} are carried out.`) + others, stepOf(changes));
    } catch (fault) {
      if (count) desk.history().add(stepOf(changes.slice(0, count)));
      throw fault;
    }
  }, `Sending: ${labelOf(changes)} ...`).then(() => count);
}

function howFar(changes, count, isLost) {
  const {act, lane} = changes[count], left = changes.length - count - 1;
  return `${count} of ${changes.length} changes were carried out. To ${act} ${laneText(lane)} ${isLost ? "had no reply" : "was refused"}`
    + (left ? `; ${left} behind it were not sent.` : ".");
}

// Whether a lane is as a change leaves it.
export const isMade = (plan, {act, lane, ...holder}) => holds(plan.grants[lane], holder) === (act === "grant");

// Tells of a lane whether it is as the last change of it leaves it.
function ownOf(desk, changes) {
  const last = new Map(changes.map(change => [change.lane, change]));
  return lane => last.has(lane) && isMade(desk.plan, last.get(lane));
}

export function stopGranting(desk) {
  quiet();
  setGranting(desk, false);
}
