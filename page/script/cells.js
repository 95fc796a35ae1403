// A cell of the plan that was pointed at: what is there, and what it is in words.
import {channelsIn, laneOf} from "./plan.js";
import {isChanged} from "./painting.js";
import {longPlaceText} from "./words.js";

// The cell of a column, a side of it and a cycle; cycle -1 is the lane's head, and a strip has none.
export function cellAt({desk, sheet}, at, side, cycle) {
  const column = sheet.columns[at], {plan, room} = desk;
  if (column.to) return {column: at, strip: column, cycle};
  const channel = sheet.channels[side], lane = laneOf(column.slot, channel);
  const placement = cycle < 0 ? null : plan.at(lane, cycle);
  const cell = {column: at, side, slot: column.slot, channel, lane, cycle, grant: plan.grants[lane], placement};
  if (room && cycle >= 0 && channelsIn(room.channels).includes(channel)) {
    const {channels, repetition} = room, base = cycle % repetition;
    if (room.bases.get(column.slot + channels)?.has(base)) cell.place = {slot: column.slot, channels, base, repetition};
  }
  return cell;
}

export function described(desk, cell) {
  const {strip} = cell;
  if (strip) {
    const slots = strip.slot === strip.to ? `Slot ${strip.slot}` : `Slots ${strip.slot} to ${strip.to}`;
    return `${slots}: ${desk.isIntegrator ? "granted to nobody" : "not granted to you"}. Enter or a click unfolds.`;
  }
  const where = cell.cycle < 0 ? `Slot ${cell.slot} ${cell.channel}` : `Cycle ${cell.cycle}, slot ${cell.slot} ${cell.channel}`;
  return `${where}: ${cell.place ? wouldBe(desk, cell.place) : what(desk, cell) + changes(desk, cell)}`;
}

function wouldBe({plan, room: {frame}, times}, place) {
  return `place ${frame.name} with base ${place.base} of repetition ${place.repetition}, on ${place.channels}. `
    + `Its greatest gap would be ${times.text(plan.gapWith(frame, place))}; it is ${times.number(frame.gap)}.`;
}

function what(desk, {placement, grant, lane, cycle}) {
  const of = supplier => desk.isIntegrator ? ` of ${supplier}` : "", {plan} = desk;
  if (placement) {
    const {frame} = placement;
    return `${frame.name}, sent by ${frame.node}${of(frame.supplier)} in ${longPlaceText(placement)}. Greatest gap ${desk.times.text(frame.gap)}.`;
  }
  if (!grant) return desk.isIntegrator ? "granted to nobody." : "not granted to you.";
  return `granted to ${grant.node}${of(grant.supplier)}; ${cycle < 0 ? `used in ${plan.load[lane]} of ${plan.cycles} cycles` : "nothing is sent"}.`;
}

function changes(desk, {lane, cycle}) {
  const change = desk.look.marks && cycle >= 0 ? desk.difference?.cells.get(lane)?.[cycle] : null;
  if (!change || !isChanged(change)) return "";
  const {from} = desk.difference;
  return (change.now ? ` New since ${from}.` : "") + (change.then ? ` In ${from} ${change.then.frame} is sent here.` : "");
}
