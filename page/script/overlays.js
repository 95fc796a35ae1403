// Paints over the cells what the user is about: where a frame fits, what is chosen, which lanes are to be granted, and the cursor.
import {fillBox, strokeBox, write} from "./ink.js";
import {channelOf, slotOf} from "./plan.js";
import {proposedIn} from "./proposing.js";

// A frame's room: a plus in each cell in which a placement of it may begin or go on; that under the mouse is dark.
export function paintRoom(ink, {sheet, desk, cursor}, {from, until, rows}) {
  const {room} = desk, wanted = cursor.hover?.place;
  if (!room) return;
  for (let at = from; at <= until; at += 1) {
    const {slot, to} = sheet.columns[at], bases = to ? null : room.bases.get(slot + room.channels);
    const stretch = bases && sheet.stretch(slot, room.channels);
    if (!stretch) continue;
    for (let cycle = rows.first; cycle <= rows.last; cycle += 1) {
      const base = cycle % room.repetition;
      if (bases.has(base)) paintFit(ink, sheet, stretch, cycle, wanted?.slot === slot && wanted.base === base);
    }
  }
}

function paintFit(ink, sheet, {x, wide}, cycle, isWanted) {
  const y = sheet.y(cycle), tall = sheet.height(cycle);
  fillBox(ink, isWanted ? "#0a5c2e" : "#b5f0c4", x + 1, y + 1, wide - 1, tall - 1);
  if (sheet.width >= 6) write(ink, isWanted ? "\u25cf" : "+", x + wide / 2, y + tall / 2 + 0.5, isWanted ? "#fff" : "#06401f", 10, "center", "bold");
}

// What is sent to the register, and not answered yet.
export function paintPending(ink, {sheet, desk}) {
  for (const placement of desk.pending) {
    const stretch = sheet.stretch(placement.slot, placement.channels);
    if (!stretch) continue;
    for (const cycle of desk.plan.cyclesOf(placement)) {
      const y = sheet.y(cycle), tall = sheet.height(cycle);
      fillBox(ink, "#ffd98a", stretch.x + 1, y + 1, stretch.wide - 1, tall - 1);
      if (sheet.width >= 6) write(ink, "...", stretch.x + stretch.wide / 2, y + tall / 2 - 1, "#4a3200", 10, "center", "bold");
    }
  }
}

// What is proposed for wishes, as outlines over what is there.
export function paintProposed(ink, {sheet, desk}) {
  for (const placement of proposedIn(desk)) {
    const stretch = sheet.stretch(placement.slot, placement.channels);
    if (!stretch) continue;
    for (const cycle of desk.plan.cyclesOf(placement)) {
      strokeBox(ink, "#fff", 4, stretch.x + 1.5, sheet.y(cycle) + 1.5, stretch.wide - 2, sheet.height(cycle) - 2);
      strokeBox(ink, "#7a1fa2", 2, stretch.x + 1.5, sheet.y(cycle) + 1.5, stretch.wide - 2, sheet.height(cycle) - 2);
    }
  }
}

// The chosen frame has a border, the chosen placement a thick one.
export function paintChosen(ink, {sheet, desk}) {
  for (const placement of desk.frame?.placements ?? []) {
    const stretch = sheet.stretch(placement.slot, placement.channels), thick = placement === desk.placement ? 3 : 2;
    if (!stretch) continue;
    const runs = placement.repetition === 1 ? [[0, sheet.tall]] : desk.plan.cyclesOf(placement).map(cycle => [sheet.y(cycle), sheet.height(cycle)]);
    for (const [y, tall] of runs) {
      strokeBox(ink, "#fff", thick + 2, stretch.x + 1, y + 1, stretch.wide - 1, tall - 1);
      strokeBox(ink, "#000", thick, stretch.x + 1, y + 1, stretch.wide - 1, tall - 1);
    }
  }
}

// The lanes over which was drawn to grant or revoke them.
export function paintPicked(ink, {sheet, desk}) {
  for (const lane of desk.granting?.lanes ?? []) {
    const stretch = sheet.stretch(slotOf(lane), channelOf(lane));
    if (!stretch) continue;
    fillBox(ink, "#0b5cad33", stretch.x, 0, stretch.wide, sheet.tall);
    strokeBox(ink, "#0b5cad", 2, stretch.x + 1, 1, stretch.wide - 2, sheet.tall - 2);
  }
}

export function paintCursor(ink, {sheet, cursor}) {
  const column = sheet.columns[cursor.column], y = sheet.y(cursor.cycle), tall = sheet.height(cursor.cycle) + 1;
  const x = column.to ? column.x : sheet.laneX(column, cursor.side), wide = (column.to ? column.width : sheet.width) + 1;
  strokeBox(ink, "#fff", 5, x, y, wide, tall);
  strokeBox(ink, "#c2410c", 3, x, y, wide, tall);
}
