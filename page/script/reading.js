// What is read of the register: the cluster, a variant's plan, the room for a frame, differences and exports.
import {Refused, Strange} from "./faults.js";
import {joined, meanwhile, meanwhileInAll} from "./meanwhile.js";
import {channelsIn, laneOf, Plan} from "./plan.js";
import {Register} from "./register.js";
import {readCluster, readDifference, readExport, readNodes, readRows, readVariants} from "./reports.js";
import {isFull, roomOf} from "./room.js";

// Whether the integrator asks. No report says whose the key is: this request of room is refused in each case, and the integrator's refusal is its own.
async function isIntegrators(register) {
  try { await register.read("variants/x/frames/x/room/1"); } catch (fault) {
    if (!(fault instanceof Refused)) throw fault;
    return fault.number === 3;
  }
  return false;
}

// What belongs to all variants, as the reports tell it.
const readAll = register => Promise.all(["cluster", "nodes", "variants"].map(path => register.read(path)));

function takeAll(desk, [cluster, nodes, variants]) {
  Object.assign(desk, {cluster: readCluster(cluster), nodes: readNodes(nodes, desk.me), variants: readVariants(variants)});
  if (!desk.isOpen()) Object.assign(desk, {room: null, granting: null});
  desk.tell("register");
}

// Takes up a key.
export async function enter(desk, key) {
  const register = new Register(key), [isIntegrator, all] = await Promise.all([isIntegrators(register), readAll(register)]);
  const {suppliers} = readCluster(all[0]);
  if (!isIntegrator && suppliers.length !== 1) throw new Strange("The server does not say who you are.");
  Object.assign(desk, {register, isIntegrator, me: isIntegrator ? null : suppliers[0]});
  takeAll(desk, all);
}

export const readRegister = async desk => takeAll(desk, await readAll(desk.register));

// All of a variant at one moment; and beside it what differs from another one, where that is shown.
const readVariant = (desk, variant, from) => Promise.all([desk.register.read(`variants/${variant}/rows`), from ? desk.register.read(`variants/${variant}/since/${from}`) : null]);

// Shows a plan that was read; what was chosen stays chosen, if it is there.
function take(desk, [rows, since], from) {
  const {frame, room} = desk, plan = new Plan(desk.cluster, readRows(rows, desk.me));
  Object.assign(desk, {plan, placement: null, frame: frame && plan.frameNamed(frame.supplier, frame.name)});
  if (from) desk.difference = differenceOf(desk, from, since);
  if (room) findRoom(desk, room.repetition, room.channels);
  desk.tell("plan");
}

export async function choose(desk, variant) {
  const turn = desk.turn += 1, from = variant === desk.variant ? desk.difference?.from : null, read = await readVariant(desk, variant, from);
  if (desk.turn !== turn) return;
  if (variant !== desk.variant) Object.assign(desk, {difference: null, granting: null, room: null, lane: null, file: null, queue: []});
  desk.variant = variant;
  take(desk, read, from);
}

// Reads the plan again after a change, and says what somebody else changed; `isOwn` and `isOwnSignal` are those of `meanwhile`. What belongs to all
// variants may be read beside it.
export async function reread(desk, {isOwn, isOwnSignal} = {}, beside = null) {
  const {plan: before, turn, variant, difference} = desk, from = difference?.from;
  const [read, all] = await Promise.all([readVariant(desk, variant, from), beside]);
  if (all) takeAll(desk, all);
  if (desk.turn !== turn || desk.variant !== variant) return "";
  take(desk, read, desk.difference?.from === from ? from : null);
  return meanwhile(before, desk.plan, isOwn, isOwnSignal);
}

// Reads everything that is shown again, and says what was changed.
export async function refresh(desk, isOwn) {
  const {variants, nodes} = desk, all = readAll(desk.register);
  const changed = desk.variant ? await reread(desk, {isOwn}, all) : takeAll(desk, await all) ?? "";
  return joined([changed, meanwhileInAll({variants, nodes}, desk)]);
}

// Where the chosen frame fits with a repetition on these channels.
export function findRoom(desk, repetition, channels) {
  const {frame, plan} = desk;
  desk.room = null;
  if (!frame || !desk.mayPlan() || isFull(frame)) return;
  const bases = roomOf(plan, frame, repetition);
  const count = [...bases].reduce((sum, [key, free]) => sum + (key === parseInt(key, 10) + channels ? free.size : 0), 0);
  desk.room = {frame, repetition, channels, bases, count};
}

// What differs since another variant, and where: in each cell, and in each lane 1 for a new grant, 2 for one that is gone.
function differenceOf(desk, from, text) {
  const rows = readDifference(text, desk.me), {cycles} = desk.cluster, cells = new Map(), lanes = new Map();
  for (const row of rows) {
    if (row.kind !== "grant" && row.kind !== "placement") continue;
    for (const channel of channelsIn(row.channels)) {
      const lane = laneOf(row.slot, channel);
      if (row.kind === "grant") { lanes.set(lane, (lanes.get(lane) ?? 0) | (row.isNew ? 1 : 2)); continue; }
      if (!cells.has(lane)) cells.set(lane, Array.from({length: cycles}, () => ({})));
      for (let cycle = row.base; cycle < cycles; cycle += row.repetition) cells.get(lane)[cycle][row.isNew ? "now" : "then"] = row;
    }
  }
  return {from, rows, cells, lanes, kind: null};
}

export async function compare(desk, from) {
  const {turn} = desk, text = await desk.register.read(desk.path(`since/${from}`));
  if (desk.turn === turn) desk.difference = differenceOf(desk, from, text);
}

// More parts than the largest plan has.
const MOST_PARTS = 4096;

// All parts of an export, joined below one header.
export async function exported(desk, kind) {
  const records = [];
  for (let part = 0, header; ; part += 1) {
    const read = readExport(kind, await desk.register.read(desk.path(`exports/${kind}/${part}`)));
    header ??= read.header;
    if (part === MOST_PARTS) throw new Strange("The server sent an export without an end.");
    if (!read.records.length) return {records, parts: part, text: [header, ...records].join("\n") + "\n"};
    for (const record of read.records) records.push(record);
  }
}
