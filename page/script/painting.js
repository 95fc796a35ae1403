// Paints the cells of a plan: what is granted, what is sent, what differs.
import {fillBox, strokeBox, strokeLines, within, write, writeDown} from "./ink.js";
import {inkOn} from "./palette.js";

// Columns `from` to `until`, and in them the cycles `rows`; `top` is where the window begins. First all lanes, then what is sent, since a
// placement on both channels is one rectangle over both.
export function paintColumns(ink, view, {from, until, rows, top}) {
  for (let at = from; at <= until; at += 1) {
    const column = view.sheet.columns[at];
    if (column.to) { paintStrip(ink, view, column, top); continue; }
    const lanes = view.sheet.lanes(column);
    for (const lane of lanes) paintLane(ink, view, lane);
    for (const lane of lanes) paintSent(ink, view, lane, rows, top);
    for (const lane of lanes) paintMarks(ink, view, lane, rows);
  }
}

function paintStrip(ink, {sheet, desk}, {slot, to, x, width}, top) {
  fillBox(ink, "#d5d9df", x, 0, width, sheet.tall);
  const text = `${desk.isIntegrator ? "nobody holds" : "not yours:"} ${slot}${slot === to ? "" : " to " + to}`;
  writeDown(ink, text, x + width / 2, 6 + top, "#3a424d", 11);
}

function paintLane(ink, {sheet: {width, tall}, desk, palette}, {lane, x}) {
  const grant = desk.plan.grants[lane];
  // Where a frame is to be placed, only its own cells keep their colour.
  fillBox(ink, !grant || desk.room ? "#fff" : palette.hatch(ink, palette.ofLane(grant)), x, 0, width, tall);
  if (!grant) strokeLines(ink, "#c3c8d0", [x, 0, x + width, tall], [x, tall, x + width, 0]);
  if (width >= 4) strokeBox(ink, grant ? "#9aa1ab" : "#c3c8d0", 1, x + 0.5, 0.5, width, tall);
}

// The placements of a lane as runs of cycles. A run that began above the window begins there.
function paintSent(ink, view, lane, rows, top) {
  const {plan} = view.desk;
  let cycle = rows.first;
  while (cycle > 0 && plan.at(lane.lane, cycle) && plan.at(lane.lane, cycle - 1) === plan.at(lane.lane, cycle)) cycle -= 1;
  while (cycle <= rows.last) {
    const placement = plan.at(lane.lane, cycle);
    let end = cycle + 1;
    while (placement && end < plan.cycles && plan.at(lane.lane, end) === placement) end += 1;
    if (placement) paintRun(ink, view, lane, placement, cycle, end, top);
    cycle = end;
  }
}

function paintRun(ink, {sheet, desk, palette}, lane, placement, begin, end, top) {
  const {width} = sheet, {frame} = placement, isBoth = placement.channels === "AB" && sheet.channels.length === 2;
  if (isBoth && lane.channel === "B") return;
  const x = lane.x, y = sheet.y(begin), wide = isBoth ? width * 2 : width, tall = sheet.y(end) - y;
  const colour = desk.room && frame !== desk.room.frame ? "#d3d7dd" : palette.ofPlacement(placement);
  ink.globalAlpha = !desk.room && desk.found && !desk.found.has(frame) ? 0.25 : 1;
  fillBox(ink, colour, x, y, wide, tall);
  if (width >= 4) strokeBox(ink, "#0009", 1, x + 0.5, y + 0.5, wide, tall);
  if (wide >= 10 && (tall >= 34 || (wide >= 26 && sheet.rowHeight >= 9))) paintName(ink, frame.name, {x, y, wide, tall}, inkOn(colour), top);
  ink.globalAlpha = 1;
}

// A name across where there is room, else down.
function paintName(ink, name, {x, y, wide, tall}, colour, top) {
  const isAcross = wide >= 100 || tall < 34, size = Math.min(11, (isAcross ? tall : wide) - 1);
  if (size < 7) return;
  within(ink, x + 1, y + 1, wide - 2, tall - 1, () => {
    if (isAcross) write(ink, name, x + 3, Math.max(y, Math.min(top, y + tall - 16)) + Math.min(tall, 16) / 2 + 0.5, colour, size, "left");
    else writeDown(ink, name, x + wide / 2, Math.max(y, top) + 4, colour, size);
  });
}

const GREEN = "#00602f";
const RED = "#b00015";

// A border: whole and green for what is new, dashed and red for what is gone.
export function strokeChange(ink, isNew, x, y, wide, tall) {
  ink.setLineDash(isNew ? [] : [3, 2]);
  strokeBox(ink, isNew ? GREEN : RED, 2, x, y, wide, tall);
  ink.setLineDash([]);
}

function paintMarks(ink, {sheet, desk}, {lane, x}, rows) {
  const cells = desk.look.marks ? desk.difference?.cells.get(lane) : null;
  if (!cells) return;
  for (let cycle = rows.first; cycle <= rows.last; cycle += 1) {
    if (isChanged(cells[cycle])) paintMark(ink, sheet, x, cycle, Boolean(cells[cycle].now), !desk.plan.at(lane, cycle));
  }
}

export const isChanged = ({now, then}) => Boolean(now || then) && !(now && then && now.frame === then.frame && now.supplier === then.supplier);

function paintMark(ink, sheet, x, cycle, isNew, isEmpty) {
  const y = sheet.y(cycle), tall = sheet.height(cycle), {width} = sheet;
  // In a wide lane the sign stands right of the name.
  const middle = [width >= 44 ? x + width - 8 : x + width / 2, y + tall / 2];
  if (isEmpty) fillBox(ink, "#fff", x + 1, y + 1, width - 1, tall - 1);
  strokeChange(ink, isNew, x + 1.5, y + 1.5, Math.max(1, width - 2), tall - 2);
  if (width < 9 || tall < 6) return;
  const arm = Math.min(3, (tall - 4) / 2);
  fillBox(ink, "#fff", middle[0] - 4.5, y + 2.5, 9, tall - 5);
  fillBox(ink, isNew ? GREEN : RED, middle[0] - 3.5, middle[1] - 0.8, 7, 1.6);
  if (isNew) fillBox(ink, GREEN, middle[0] - 0.8, middle[1] - arm, 1.6, arm * 2);
}
