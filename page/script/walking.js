// The keyboard on the grid: arrows walk through its cells, and each is told.
import {cellAt, described} from "./cells.js";
import {byId} from "./dom.js";
import {pickBetween} from "./granting.js";
import {act} from "./pointing.js";

export class Walking {
  constructor(desk, grid) {
    Object.assign(this, {desk, grid, anchor: null});
    grid.canvas.addEventListener("keydown", event => this.pressed(event));
    grid.canvas.addEventListener("focus", () => { if (grid.sheet) this.tell(); grid.draw(); });
    grid.canvas.addEventListener("blur", () => grid.draw());
    desk.on("plan view left", () => this.tellAgain());
  }

  pressed(event) {
    const {grid} = this;
    if (!this.desk.plan || !grid.sheet || event.ctrlKey || event.metaKey || event.altKey) return;
    const step = this.steps()[event.key];
    if (step) this.walk(step, event.shiftKey);
    else if (event.key === "Enter" || event.key === " ") act(this.desk, grid.current());
    else if (event.key === "+") grid.zoom(1);
    else if (event.key === "-") grid.zoom(-1);
    else if (event.key === "0") grid.setWidth(grid.widest());
    else if (event.key === "n") this.nextPlace();
    else return;
    event.preventDefault();
  }

  steps() {
    const {cursor, sheet: {columns}} = this.grid;
    return {
      ArrowUp: () => { cursor.cycle -= 1; }, ArrowDown: () => { cursor.cycle += 1; },
      PageUp: () => { cursor.cycle -= 8; }, PageDown: () => { cursor.cycle += 8; },
      ArrowRight: () => this.aside(1), ArrowLeft: () => this.aside(-1),
      Home: () => Object.assign(cursor, {column: 0, side: 0}), End: () => Object.assign(cursor, {column: columns.length - 1, side: 0}),
    };
  }

  lanesOf(at) { return this.grid.sheet.columns[at].to ? 1 : this.grid.sheet.channels.length; }

  // To the next lane, or the one before.
  aside(step) {
    const {cursor, sheet} = this.grid, side = cursor.side + step, column = cursor.column + step;
    if (side >= 0 && side < this.lanesOf(cursor.column)) cursor.side = side;
    else if (sheet.columns[column]) Object.assign(cursor, {column, side: step > 0 ? 0 : this.lanesOf(column) - 1});
  }

  // With Shift, lanes to be granted are drawn over.
  walk(step, isDrawing) {
    const {grid, desk} = this, {cursor} = grid, before = grid.current();
    step();
    cursor.cycle = Math.max(0, Math.min(grid.sheet.cycles - 1, cursor.cycle));
    const cell = grid.current();
    this.anchor = isDrawing && desk.granting ? this.anchor ?? (before.strip ? null : before) : null;
    if (this.anchor && !cell.strip) pickBetween(desk, grid.sheet, this.anchor, cell);
    this.tell();
    grid.follow();
  }

  // To the next cell in which the frame fits.
  nextPlace() {
    const {grid, desk: {room}} = this, {cursor, sheet} = grid;
    if (!room) return;
    const side = Math.max(0, sheet.channels.indexOf(room.channels[0])), all = sheet.columns.length * sheet.cycles;
    for (let step = 1, from = cursor.column * sheet.cycles + cursor.cycle; step <= all; step += 1) {
      const column = Math.floor((from + step) / sheet.cycles) % sheet.columns.length, cycle = (from + step) % sheet.cycles;
      if (sheet.columns[column].to || !cellAt(grid, column, side, cycle).place) continue;
      Object.assign(cursor, {column, side, cycle});
      this.tell();
      grid.follow();
      return;
    }
  }

  // What was told of a cell is told anew where the keyboard is still there.
  tellAgain() {
    if (this.desk.hasView("plan") && this.grid.sheet && document.activeElement === this.grid.canvas) this.tell();
    else byId("cell").textContent = "";
  }

  tell() {
    const cell = this.grid.current();
    this.grid.cursor.hover = cell;
    byId("cell").textContent = described(this.desk, cell);
  }
}
