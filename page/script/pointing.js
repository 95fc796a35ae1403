// The mouse and the finger on the grid: what is pointed at is told, a click acts, and lanes are drawn over to grant them.
import {described} from "./cells.js";
import {byId} from "./dom.js";
import {pickBetween, grantPicked} from "./granting.js";
import {hideTip, inTurn, say, showTip} from "./messages.js";
import {place} from "./steps.js";

// Does what a click on a cell, or Enter, means there. While an answer is awaited, what is to be sent waits.
export function act(desk, cell) {
  hideTip();
  const {room, granting} = desk;
  if (cell.strip) desk.reveal(cell.strip.slot, "A", Math.max(0, cell.cycle));
  else if (granting) inTurn(desk, () => { if (desk.granting) grantPicked(desk, cell); });
  else if (cell.place) place(desk, room.frame, cell.place);
  else if (cell.placement) desk.choose({frame: cell.placement.frame, placement: cell.placement});
  else if (room && cell.cycle >= 0) {
    say("warn", `${room.frame.name} does not fit there with repetition ${room.repetition} on ${room.channels}. It fits where a + stands.`);
  } else desk.choose({lane: cell.lane});
}

const isSame = (one, other) => one?.lane === other?.lane && one?.cycle === other?.cycle && one?.column === other?.column;

export class Pointing {
  constructor(desk, grid) {
    Object.assign(this, {desk, grid, pointer: "mouse", armed: null, drawn: null});
    const {canvas} = grid;
    canvas.addEventListener("pointerdown", event => this.pressed(event));
    canvas.addEventListener("pointermove", event => this.moved(event));
    canvas.addEventListener("pointerleave", () => this.left());
    canvas.addEventListener("click", event => this.clicked(event));
    canvas.addEventListener("wheel", event => this.rolled(event), {passive: false});
  }

  pressed(event) {
    this.pointer = event.pointerType;
    this.drawn = null;
    if (!this.desk.granting) return;
    const cell = this.grid.hit(event);
    if (cell && !cell.strip) this.drawn = {from: cell, isLong: false};
  }

  moved(event) {
    if (!this.desk.plan) return;
    const {grid, desk, drawn} = this, cell = grid.hit(event), wasHovered = grid.cursor.hover;
    grid.cursor.hover = cell;
    grid.canvas.style.cursor = cell && (cell.place || cell.placement || desk.granting || cell.strip) ? "pointer" : "default";
    if (drawn && event.buttons && cell && !cell.strip && (drawn.isLong || cell.lane !== drawn.from.lane)) {
      if (!drawn.isLong) grid.canvas.setPointerCapture(event.pointerId);
      drawn.isLong = true;
      pickBetween(desk, grid.sheet, drawn.from, cell);
    }
    if (cell && event.pointerType === "mouse") showTip(described(desk, cell), event.clientX, event.clientY);
    else hideTip();
    if (!isSame(cell, wasHovered)) grid.draw();
  }

  left() {
    this.grid.cursor.hover = null;
    hideTip();
    this.grid.draw();
  }

  clicked(event) {
    const {grid, desk} = this, cell = grid.hit(event), drawn = this.drawn;
    this.drawn = null;
    if (!cell || drawn?.isLong) return;
    Object.assign(grid.cursor, {column: cell.column, side: cell.side ?? 0, cycle: Math.max(0, cell.cycle)});
    byId("cell").textContent = described(desk, cell);
    if (this.isFirstTouch(cell)) {
      this.armed = cell.place;
      grid.cursor.hover = cell;
      grid.draw();
      byId("cell").textContent += " Touch again to place it.";
      return;
    }
    this.armed = null;
    act(desk, cell);
  }

  // A finger does not hover: its first touch shows where the frame would go, the second places it.
  isFirstTouch({place: wanted}) {
    return this.pointer === "touch" && wanted && !(this.armed?.slot === wanted.slot && this.armed.base === wanted.base);
  }

  rolled(event) {
    if (!event.ctrlKey) return;
    event.preventDefault();
    this.grid.zoom(event.deltaY < 0 ? 1 : -1);
  }
}
