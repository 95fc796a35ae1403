// The cycles that a placement selects, and the gaps between the moments at which a frame is sent.

export const divisors = cycles => Array.from({length: cycles}, (_, before) => before + 1).filter(number => cycles % number === 0);

export function cyclesOf({base, repetition}, cycles) {
  const found = [];
  for (let cycle = base; cycle < cycles; cycle += repetition) found.push(cycle);
  return found;
}

// The greatest gap of a frame with these placements, in macroticks, round the ring of all cycles.
export function gapOf(placements, cluster) {
  const {cycles, macroticks_per_cycle: long, slot_macroticks: slotLong} = cluster, moments = [];
  for (const placement of placements) {
    for (const cycle of cyclesOf(placement, cycles)) moments.push(cycle * long + (placement.slot - 1) * slotLong);
  }
  if (!moments.length) return Infinity;
  moments.sort((one, other) => one - other);
  let greatest = cycles * long - moments.at(-1) + moments[0];
  for (let at = 1; at < moments.length; at += 1) greatest = Math.max(greatest, moments[at] - moments[at - 1]);
  return greatest;
}
