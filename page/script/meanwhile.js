// What somebody else changed between two readings, in words.
import {keyOf, laneText} from "./plan.js";
import {bitsText, firstOf, plural, shortPlaceText} from "./words.js";

export const placementsText = placements => placements.map(shortPlaceText).sort().join(", ");
const isSamePlace = (one, other) => ["slot", "channels", "base", "repetition"].every(field => one[field] === other[field]);
const isSameFrame = (one, other) => one?.node === other?.node && one.placements.length === other.placements.length
  && one.placements.every((placement, at) => isSamePlace(placement, other.placements[at]));

// The frames and the lanes that differ. A report has the placements of a frame in order.
function changesBetween(before, after) {
  const gone = before.frames.filter(frame => !after.byKey.has(keyOf(frame))), lanes = [];
  const frames = after.frames.filter(frame => !isSameFrame(frame, before.byKey.get(keyOf(frame))));
  after.grants.forEach((grant, lane) => {
    const old = before.grants[lane];
    if (old?.node !== grant?.node || old?.supplier !== grant?.supplier) lanes.push(lane);
  });
  return {frames: [...gone, ...frames], lanes};
}

const isSameSignal = (one, other) => ["name", "start", "length", "order"].every(field => one[field] === other[field]);
const areSame = (some, others) => some.length === others.length && some.every((one, at) => isSameSignal(one, others[at]));

// The signals that differ, of frames that are there both times. A report has the signals of a frame in order.
function signalsBetween(before, after, isOwn) {
  const found = [], texts = signals => new Map(signals.map(one => [one.name, bitsText(one)]));
  for (const frame of after.frames) {
    const then = before.byKey.get(keyOf(frame))?.signals;
    if (!then || areSame(then, frame.signals)) continue;
    const old = texts(then), now = texts(frame.signals);
    for (const name of new Set([...old.keys(), ...now.keys()])) {
      if (old.get(name) !== now.get(name) && !isOwn(frame, name)) found.push(`${name} of ${frame.name}`);
    }
  }
  return found;
}

const told = (texts, one) => texts.length ? `${plural(texts.length, one)} (${firstOf(texts, 5)})` : "";

// What differs, but for what the user did, in words; empty where nothing does. `isOwn` tells of a frame or a lane whether it is as the user
// wanted it, `isOwnSignal` of a frame and a signal's name.
export function meanwhile(before, after, isOwn = () => false, isOwnSignal = () => false) {
  const {frames, lanes} = changesBetween(before, after);
  const others = frames.filter(frame => !isOwn(frame)), held = lanes.filter(lane => !isOwn(lane));
  return joined([told(others.map(frame => frame.name), "frame"), told(held.map(laneText), "lane"),
    told(signalsBetween(before, after, isOwnSignal), "signal")]);
}

// The variants that were opened or released, and the nodes that are new.
export function meanwhileInAll(before, after) {
  const old = new Map(before.variants.map(({name, isReleased}) => [name, isReleased])), known = new Set(before.nodes.map(keyOfNode));
  const variants = after.variants.filter(({name, isReleased}) => old.get(name) !== isReleased)
    .map(({name, isReleased}) => `${name} is ${isReleased ? "released" : "open"}`);
  return joined([told(variants, "variant"), told(after.nodes.filter(one => !known.has(keyOfNode(one))).map(({node}) => node), "node")]);
}

const keyOfNode = ({supplier, node}) => `${supplier} ${node}`;
export const joined = parts => parts.filter(Boolean).join(" and ");

export const bySomebody = changed => changed ? ` Somebody else changed ${changed} meanwhile; you see it now.` : "";
