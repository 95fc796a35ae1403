// Where each slot and cycle of a plan stands on a sheet: that of the window, or one to print. Cycles go down, slots across.
import {channelsIn, laneOf} from "./plan.js";

// What stands left of the cells, and above them.
export const GUTTER = 32;
export const HEAD = 46;
const STRIP = 16;

export class Sheet {
  // A column is a slot, or a strip of slots that nobody holds. `width` is that of a lane; `isShown` tells of a slot that it is not folded.
  constructor(plan, {channels, width, rowHeight, isShown}) {
    Object.assign(this, {cycles: plan.cycles, channels: channelsIn(channels), width, rowHeight, columns: [], bySlot: new Map()});
    const between = width >= 8 ? 3 : width >= 3 ? 1 : 0;
    let x = 0;
    for (let slot = 1; slot <= plan.cluster.static_slots; slot += 1) {
      const last = this.columns.at(-1), isFolded = !isShown(slot);
      if (isFolded && last?.to) { last.to = slot; continue; }
      const column = {slot, to: isFolded ? slot : 0, x, width: isFolded ? STRIP : this.channels.length * width};
      this.columns.push(column);
      if (!isFolded) this.bySlot.set(slot, column);
      x += column.width + between;
    }
    this.wide = x;
    this.tall = Math.round(plan.cycles * rowHeight);
  }

  // Where a cycle begins, and how high it is.
  y(cycle) { return Math.round(cycle * this.rowHeight); }
  height(cycle) { return this.y(cycle + 1) - this.y(cycle); }
  cycleAt(y) { return Math.floor(y / this.rowHeight); }

  columnOf(slot) { return this.bySlot.get(slot) ?? null; }
  laneX(column, side) { return column.x + side * this.width; }
  lanes(column) { return this.channels.map((channel, side) => ({channel, side, lane: laneOf(column.slot, channel), x: this.laneX(column, side)})); }

  // The last column that begins at x or before.
  indexAt(x) {
    let low = 0, high = this.columns.length - 1;
    while (low < high) {
      const middle = (low + high + 1) >> 1;
      if (this.columns[middle].x <= x) low = middle;
      else high = middle - 1;
    }
    return low;
  }

  // The lanes that these channels have in a slot, as one stretch; null where none is shown.
  stretch(slot, channels) {
    const column = this.columnOf(slot);
    const sides = column ? channelsIn(channels).map(channel => this.channels.indexOf(channel)).filter(side => side >= 0) : [];
    return sides.length ? {x: this.laneX(column, Math.min(...sides)), wide: sides.length * this.width} : null;
  }
}
