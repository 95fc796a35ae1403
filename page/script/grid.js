// The grid: the part of a plan that its window shows, on one canvas that never grows with the plan.
import {cellAt} from "./cells.js";
import {byId} from "./dom.js";
import {paintGutter, paintHead} from "./heads.js";
import {sized, within} from "./ink.js";
import {paintChosen, paintCursor, paintPending, paintPicked, paintProposed, paintRoom} from "./overlays.js";
import {Overview} from "./overview.js";
import {paintColumns} from "./painting.js";
import {laneOf} from "./plan.js";
import {GUTTER, HEAD, Sheet} from "./sheet.js";

const READABLE = 14;
const WIDTHS = [1, 2, 3, 4, 6, 8, 11, 14, 18, 24, 32, 44, 60, 84, 116];
// The least height of a cycle and the width of a lane to begin with, for a mouse and for a finger; and the height in which a name has room.
const FOR_MOUSE = {row: 7, lane: 18};
const FOR_FINGER = {row: 18, lane: 32};
const TALL_ROW = 16;
const sizes = () => window.matchMedia("(pointer: coarse)").matches ? FOR_FINGER : FOR_MOUSE;

export class Grid {
  constructor(desk, palette) {
    Object.assign(this, {desk, palette, sheet: null, variant: null, isGranting: false, waiting: 0});
    this.canvas = byId("grid");
    this.scroller = byId("scroller");
    this.cursor = {column: 0, side: 0, cycle: 0, hover: null};
    this.overview = new Overview(this.scroller);
    this.scroller.addEventListener("scroll", () => this.draw());
    new ResizeObserver(() => this.layOut()).observe(this.scroller);
    desk.on("plan mode difference look view", () => this.layOut());
    desk.on("choice lanes pending", () => this.draw());
    desk.on("reveal", () => this.show(desk.wanted));
    desk.on("left", () => { this.variant = null; });
  }

  layOut() {
    const {desk, scroller} = this;
    if (!desk.hasView("plan") || !scroller.clientWidth) return;
    if (this.variant !== desk.variant) this.begin();
    if (desk.granting && !this.isGranting) this.narrow();
    this.isGranting = Boolean(desk.granting);
    this.sheet = this.sheetOf(desk.look.width);
    // A finger that draws over lanes does not scroll.
    scroller.classList.toggle("draws", Boolean(desk.granting));
    const spacer = byId("spacer");
    spacer.style.width = `${GUTTER + this.sheet.wide}px`;
    spacer.style.height = `${HEAD + this.sheet.tall + 1}px`;
    this.canvas.style.width = `${this.wide()}px`;
    this.canvas.style.height = `${scroller.clientHeight}px`;
    this.cursor.column = Math.min(this.cursor.column, this.sheet.columns.length - 1);
    this.cursor.side = Math.min(this.cursor.side, this.sheet.channels.length - 1);
    this.draw();
  }

  wide() { return Math.min(this.scroller.clientWidth, GUTTER + this.sheet.wide); }

  sheetOf(width) {
    const {desk} = this, {plan, look} = desk, channels = look.channels || plan.cluster.channels;
    const rowHeight = Math.max(sizes().row, look.isTall ? TALL_ROW : 0, Math.min(24, (this.scroller.clientHeight - HEAD - 2) / plan.cycles));
    const isHeld = slot => plan.grants[laneOf(slot, "A")] || plan.grants[laneOf(slot, "B")] || this.isChanged(slot);
    return new Sheet(plan, {channels, width, rowHeight, isShown: slot => !look.folds || desk.granting || isHeld(slot)});
  }

  isChanged(slot) {
    const {difference, look} = this.desk;
    return look.marks && difference && ["A", "B"].map(channel => laneOf(slot, channel))
      .some(lane => difference.lanes.has(lane) || difference.cells.has(lane));
  }

  // Draws once before the window is shown anew.
  draw() { this.waiting ||= requestAnimationFrame(() => { this.waiting = 0; this.paint(); }); }

  paint() {
    const {desk, sheet, scroller, canvas} = this;
    if (!desk.hasView("plan") || !sheet) return;
    const wide = this.wide(), tall = scroller.clientHeight, ink = sized(canvas, wide, tall);
    const {scrollLeft: left, scrollTop: top} = scroller;
    const rows = {first: Math.max(0, sheet.cycleAt(top)), last: Math.min(sheet.cycles - 1, sheet.cycleAt(top + tall - HEAD))};
    const part = {from: sheet.indexAt(left), until: sheet.indexAt(left + wide), rows, left, top, wide, tall};
    within(ink, GUTTER, HEAD, wide - GUTTER, tall - HEAD, () => {
      ink.translate(GUTTER - left, HEAD - top);
      paintColumns(ink, this, part);
      paintRoom(ink, this, part);
      paintPending(ink, this);
      paintProposed(ink, this);
      paintPicked(ink, this);
      paintChosen(ink, this);
      if (document.activeElement === canvas) paintCursor(ink, this);
    });
    paintHead(ink, this, part);
    paintGutter(ink, sheet, part);
    this.overview.paint(this, left, wide);
  }

  // The cell at a place of the window.
  hit({clientX, clientY}) {
    const box = this.canvas.getBoundingClientRect(), y = clientY - box.top, x = clientX - box.left - GUTTER + this.scroller.scrollLeft;
    if (!this.sheet || clientX - box.left < GUTTER) return null;
    const at = this.sheet.indexAt(x), column = this.sheet.columns[at], inside = x - column.x;
    if (inside > column.width) return null;
    const cycle = y < HEAD ? -1 : this.sheet.cycleAt(y - HEAD + this.scroller.scrollTop);
    if (cycle >= this.sheet.cycles) return null;
    return cellAt(this, at, column.to ? 0 : Math.min(this.sheet.channels.length - 1, Math.floor(inside / this.sheet.width)), cycle);
  }

  current() { return cellAt(this, this.cursor.column, this.cursor.side, this.cursor.cycle); }

  // Scrolls so that the cursor's cell is seen.
  follow() {
    const {scroller, sheet, cursor} = this, column = sheet.columns[cursor.column], y = sheet.y(cursor.cycle), tall = sheet.height(cursor.cycle);
    const right = scroller.scrollLeft + scroller.clientWidth - GUTTER, bottom = scroller.scrollTop + scroller.clientHeight - HEAD;
    if (column.x < scroller.scrollLeft) scroller.scrollLeft = column.x - 20;
    else if (column.x + column.width > right) scroller.scrollLeft += column.x + column.width - right + 20;
    if (y < scroller.scrollTop) scroller.scrollTop = y;
    else if (y + tall > bottom) scroller.scrollTop += y + tall - bottom + 2;
    this.draw();
  }

  // Shows a cell, and unfolds its slot where it is folded.
  show({slot, channel, cycle}) {
    const {desk, scroller} = this;
    if (!this.sheet?.columnOf(slot)) {
      desk.look.folds = false;
      desk.tell("look");
    }
    const column = this.sheet?.columnOf(slot);
    if (!column) return;
    scroller.scrollIntoView({block: "nearest"});
    Object.assign(this.cursor, {column: this.sheet.columns.indexOf(column), side: Math.max(0, this.sheet.channels.indexOf(channel)), cycle});
    const isSeen = column.x >= scroller.scrollLeft && column.x + column.width <= scroller.scrollLeft + scroller.clientWidth - GUTTER;
    if (!isSeen) scroller.scrollLeft = column.x - scroller.clientWidth / 2;
    this.follow();
  }

  zoom(step) {
    const at = WIDTHS.findIndex(width => width >= this.desk.look.width);
    this.setWidth(WIDTHS[Math.max(0, Math.min(WIDTHS.length - 1, at + step))]);
  }

  // What is in the middle of the window stays there.
  setWidth(width) {
    const {scroller} = this, half = scroller.clientWidth / 2, middle = (scroller.scrollLeft + half) / Math.max(1, this.sheet?.wide ?? 1);
    this.desk.look.width = width;
    this.layOut();
    scroller.scrollLeft = middle * this.sheet.wide - half;
  }

  // The greatest width with which all slots are in the window.
  widest() {
    const wide = this.scroller.clientWidth - GUTTER - 2;
    return WIDTHS.findLast(width => this.sheetOf(width).wide <= wide) ?? WIDTHS[0];
  }

  // Where lanes are granted none is folded: they are narrower then, if they can still be read.
  narrow() {
    const widest = this.widest();
    if (widest >= READABLE) this.desk.look.width = Math.min(this.desk.look.width, widest);
  }

  // A variant is first shown with all its slots, where their lanes are wide enough to be read then.
  begin() {
    this.variant = this.desk.variant;
    const widest = this.widest();
    this.desk.look.width = widest < READABLE ? sizes().lane : Math.max(widest, sizes().lane);
    this.scroller.scrollLeft = 0;
  }
}
