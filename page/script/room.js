// Where a frame fits. A supplier's own rows decide it: in a lane that its node holds nobody else may send.
import {channelsIn, laneOf} from "./plan.js";

const MOST_PLACEMENTS = 8;
export const isFull = frame => frame.placements.length >= MOST_PLACEMENTS;

// The bases that are free in a lane, or in both lanes of a slot.
function freeBases(plan, lanes, repetition) {
  const free = new Set(Array.from({length: repetition}, (_, base) => base));
  for (const lane of lanes) {
    for (let cycle = 0; cycle < plan.cycles; cycle += 1) if (plan.at(lane, cycle)) free.delete(cycle % repetition);
  }
  return free;
}

const isHeldBy = (grant, {node, supplier}) => grant?.node === node && grant.supplier === supplier;

// By slot and channels the bases with which a frame may be placed. Nothing is there of where it does not fit.
export function roomOf(plan, frame, repetition) {
  const found = new Map();
  for (let slot = 1; slot <= plan.cluster.static_slots; slot += 1) {
    for (const channels of ["A", "AB", "B"]) {
      const lanes = channelsIn(channels).map(channel => laneOf(slot, channel));
      if (isFull(frame) || !lanes.every(lane => isHeldBy(plan.grants[lane], frame))) continue;
      const bases = freeBases(plan, lanes, repetition);
      if (bases.size) found.set(slot + channels, bases);
    }
  }
  return found;
}
