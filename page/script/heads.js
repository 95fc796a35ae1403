// Paints what stands above the cells of a plan, slots with who holds their lanes and how full these are, and left of them, the cycles.
import {fillBox, FONT, strokeBox, strokeLines, within, write} from "./ink.js";
import {strokeChange} from "./painting.js";
import {inkOn} from "./palette.js";
import {GUTTER, HEAD} from "./sheet.js";

const QUIET = "#566070";

export function paintHead(ink, view, {from, until, left, wide}) {
  fillBox(ink, "#f3f5f8", 0, 0, wide, HEAD);
  within(ink, GUTTER, 0, wide - GUTTER, HEAD, () => {
    ink.translate(GUTTER - left, 0);
    paintSlots(ink, view.sheet, from, until);
    for (const column of view.sheet.columns.slice(from, until + 1)) {
      if (!column.to) for (const lane of view.sheet.lanes(column)) paintHolder(ink, view, lane);
    }
  });
  for (const [text, y] of [["slot", 8], ["held", 24], ["load", 39]]) write(ink, text, GUTTER - 3, y, QUIET, 9, "right");
  strokeLines(ink, "#8f99a8", [0, HEAD - 0.5, wide, HEAD - 0.5]);
}

// As many numbers of slots as have room beside each other.
function paintSlots(ink, sheet, from, until) {
  let free = -Infinity;
  ink.font = `11px ${FONT}`;
  for (const {slot, to, x, width} of sheet.columns.slice(from, until + 1)) {
    const middle = x + width / 2, half = ink.measureText(slot).width / 2;
    if (to || middle - half <= free) continue;
    write(ink, slot, middle, 8, "#14181f", 11);
    free = middle + half + 4;
  }
}

function paintHolder(ink, view, {channel, lane, x}) {
  const {sheet: {width}, desk} = view, grant = desk.plan.grants[lane], change = desk.look.marks ? desk.difference?.lanes.get(lane) : 0;
  if (grant) paintHeld(ink, view, channel, lane, grant, x);
  else if (width >= 8) write(ink, channel, x + width / 2, 24, QUIET, 10);
  if (change) strokeChange(ink, change !== 2, x + 1, 16, width - 1, 15);
  if (desk.lane === lane) strokeBox(ink, "#000", 3, x + 1, 15.5, width - 1, 29);
}

function paintHeld(ink, {sheet: {width}, desk, palette}, channel, lane, grant, x) {
  const colour = palette.ofLane(grant), letter = palette.letter(grant), share = desk.plan.load[lane] / desk.plan.cycles, edge = width > 3 ? 0.5 : 0;
  fillBox(ink, colour, x + edge, 16, width - edge, 15);
  if (width >= 8) write(ink, width >= 24 ? `${channel} ${letter}`.trim() : letter || channel, x + width / 2, 24, inkOn(colour), 10, "center", "bold");
  fillBox(ink, "#fff", x + 0.5, 33, width - 0.5, 12);
  fillBox(ink, share === 1 ? "#14181f" : "#5d6b7c", x + 0.5, 33 + 12 * (1 - share), Math.max(0.5, width - 1), 12 * share);
}

export function paintGutter(ink, sheet, {top, tall, rows}) {
  fillBox(ink, "#f3f5f8", 0, HEAD, GUTTER, tall - HEAD);
  within(ink, 0, HEAD, GUTTER, tall - HEAD, () => {
    for (let cycle = rows.first; cycle <= rows.last; cycle += 1) {
      const y = HEAD + (cycle + 0.5) * sheet.rowHeight - top + 0.5;
      write(ink, cycle, GUTTER - 5, y, cycle % 8 === 0 ? "#14181f" : "#7b8594", Math.min(10, sheet.rowHeight), "right");
    }
  });
  strokeLines(ink, "#8f99a8", [GUTTER - 0.5, 0, GUTTER - 0.5, tall]);
}
