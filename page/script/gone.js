// What a file would take away that takes the place of what was there: rows that the register has, and the file has not.
import {make} from "./dom.js";
import {readRows} from "./reports.js";
import {bitsText, longPlaceText, plural} from "./words.js";

// The kinds of rows that a file may take away, in words.
const TEXTS = {
  frame: ({frame, node}) => `${frame}, sent by ${node}`,
  placement: row => `${row.frame} in ${longPlaceText(row)}`,
  signal: row => `${row.frame}, ${bitsText(row)}`,
};
const goneText = row => TEXTS[row.kind](row);

// By the kind of a file: its rows as the register tells them, numbers without leading zeros.
const FILED = {
  frames: ([frame, node]) => ({kind: "frame", frame, node}),
  placements: ([frame, , slot, channels, base, repetition]) =>
    ({kind: "placement", frame, slot: Number(slot), channels, base: Number(base), repetition: Number(repetition)}),
  signals: ([frame, name, start, length, order]) => ({kind: "signal", frame, name, start: Number(start), length: Number(length), order}),
};

// Reads the rows that are there, and gives those that the rows of a file, below its header, would take away: of all frames where it is whole, else of
// those that it names. With a frame go its placements and signals.
export async function rowsGone(desk, {kind, shown}, isWhole) {
  const filed = shown.slice(1).map(FILED[kind]), stay = new Set(filed.map(goneText)), named = new Set(filed.map(({frame}) => frame));
  const there = readRows(await desk.register.read(desk.path("rows")), desk.me).filter(row => TEXTS[row.kind]);
  const missing = there.filter(row => `${row.kind}s` === kind && (isWhole || named.has(row.frame)) && !stay.has(goneText(row)));
  if (kind !== "frames") return missing.map(asGone);
  const frames = new Set(isWhole ? missing.map(({frame}) => frame) : []);
  return there.filter(({frame}) => frames.has(frame)).map(asGone);
}

const asGone = row => ({kind: row.kind, text: goneText(row)});

export const isSameGone = (one, other) => one.length === other.length && one.every(({text}, at) => text === other[at].text);
export const goneCount = ({gone}) => Object.keys(TEXTS).map(kind => [gone.filter(one => one.kind === kind).length, kind])
  .filter(([count]) => count).map(([count, kind]) => plural(count, kind)).join(", ");
export const goneList = ({gone}) => make("ul", {class: "scroll"}, gone.map(({text}) => make("li", {}, text)));
