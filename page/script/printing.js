// The plan on paper: all its lanes, as many as a page is wide on each sheet.
import {byId, make} from "./dom.js";
import {paintGutter, paintHead} from "./heads.js";
import {sized} from "./ink.js";
import {paintColumns} from "./painting.js";
import {GUTTER, HEAD, Sheet} from "./sheet.js";

const ROW = 10;
const PAPER = 980;
const SCALE = 2;
const MOST_PAGES = 24;

export function printing(desk, grid) {
  window.addEventListener("beforeprint", () => { if (desk.hasView("plan") && grid.sheet) byId("print").replaceChildren(...pages(desk, grid)); });
  window.addEventListener("afterprint", () => byId("print").replaceChildren());
}

// What the user is about is not printed: where a frame fits, what was searched.
const atRest = desk => Object.assign(Object.create(desk), {room: null, found: null});

function pages(desk, {sheet: {width, channels}, palette, sheet: shown}) {
  const sheet = new Sheet(desk.plan, {channels: channels.join(""), width, rowHeight: ROW, isShown: slot => shown.columnOf(slot) !== null});
  const {columns} = sheet, found = [];
  if (sheet.wide > PAPER * MOST_PAGES) return [make("p", {}, "The plan is too wide to be printed here. The picture, under Files, prints it.")];
  for (let first = 0, last; first < columns.length; first = last + 1) {
    for (last = first; columns[last + 1] && columns[last + 1].x + columns[last + 1].width - columns[first].x <= PAPER - GUTTER;) last += 1;
    found.push(page({desk: atRest(desk), palette, sheet}, first, last));
  }
  return found;
}

function page(view, from, until) {
  const {sheet} = view, tall = HEAD + sheet.tall + 2, left = sheet.columns[from].x, rows = {first: 0, last: sheet.cycles - 1};
  const canvas = make("canvas", {}), ink = sized(canvas, PAPER, tall, SCALE);
  const part = {from, until, rows, left, top: 0, tall, wide: GUTTER + sheet.columns[until].x + sheet.columns[until].width - left + 1};
  ink.save();
  ink.translate(GUTTER - left, HEAD);
  paintColumns(ink, view, part);
  ink.restore();
  paintHead(ink, view, part);
  paintGutter(ink, sheet, part);
  return canvas;
}
