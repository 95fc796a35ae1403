// The overview: all lanes of a plan that is wider than its window, and which of them the window shows.
import {byId, make} from "./dom.js";
import {fillBox, sized, strokeBox} from "./ink.js";
import {softened} from "./palette.js";
import {GUTTER} from "./sheet.js";

const TALL = 24;

export class Overview {
  constructor(scroller) {
    this.canvas = byId("overview");
    this.scroller = scroller;
    Object.assign(this, {wide: 1, sheet: null, across: 0, lanes: make("canvas")});
    for (const event of ["pointerdown", "pointermove"]) this.canvas.addEventListener(event, pointed => this.jump(pointed));
  }

  jump(event) {
    if (!event.buttons && event.type !== "pointerdown") return;
    const share = (event.clientX - this.canvas.getBoundingClientRect().left) / this.canvas.clientWidth;
    this.scroller.scrollLeft = share * this.wide - this.scroller.clientWidth / 2;
  }

  paint(view, left, wide) {
    const {canvas} = this, {sheet} = view;
    this.wide = sheet.wide;
    canvas.hidden = sheet.wide <= wide - GUTTER;
    if (canvas.hidden) return;
    const across = canvas.clientWidth, share = across / sheet.wide;
    if (this.sheet !== sheet || this.across !== across) this.draw(view, across, share);
    const ink = sized(canvas, across, TALL);
    ink.drawImage(this.lanes, 0, 0, across, TALL);
    strokeBox(ink, "#000", 2, left * share + 1, 1, Math.max(3, (wide - GUTTER) * share - 2), TALL - 2);
  }

  // All lanes, once for each sheet: a step of scrolling moves the window alone.
  draw(view, across, share) {
    const ink = sized(this.lanes, across, TALL);
    for (const column of view.sheet.columns) paintShare(ink, view, column, share);
    Object.assign(this, {sheet: view.sheet, across});
  }
}

function paintShare(ink, {sheet, desk, palette}, column, share) {
  const x = column.x * share, wide = Math.max(0.7, column.width * share), high = TALL / sheet.channels.length;
  if (column.to) fillBox(ink, "#d5d9df", x, 0, wide, TALL);
  else for (const {lane, side} of sheet.lanes(column)) {
    const grant = desk.plan.grants[lane], part = high * desk.plan.load[lane] / desk.plan.cycles;
    if (!grant) continue;
    const colour = palette.ofLane(grant);
    fillBox(ink, softened(colour), x, side * high, wide, high);
    fillBox(ink, colour, x, (side + 1) * high - part, wide, part);
  }
}
