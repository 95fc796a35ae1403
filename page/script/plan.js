// The plan of a variant: its grants, its frames with their placements, signals and gaps, and what is sent in each cell.
import {cyclesOf, gapOf} from "./cycles.js";
import {Strange} from "./faults.js";

export const channelsIn = channels => channels.split("");
// Lanes have numbers: those of a slot stand together, A before B.
export const laneOf = (slot, channel) => (slot - 1) * 2 + (channel === "A" ? 0 : 1);
export const slotOf = lane => (lane >> 1) + 1;
export const channelOf = lane => lane % 2 ? "B" : "A";
export const laneText = lane => `${slotOf(lane)} ${channelOf(lane)}`;

export const keyOf = ({supplier, name}) => `${supplier} ${name}`;

export class Plan {
  // `rows` are all that the variant has, at one moment.
  constructor(cluster, rows) {
    const lanes = cluster.static_slots * 2;
    this.cluster = cluster;
    this.cycles = cluster.cycles;
    this.grants = new Array(lanes).fill(null);
    this.load = new Uint8Array(lanes);
    this.cells = new Int32Array(lanes * this.cycles);
    this.frames = [];
    this.byKey = new Map();
    this.placements = [];
    this.suppliers = new Map(cluster.suppliers.map((name, at) => [name, at]));
    for (const row of rows) this[row.kind](row);
    if (this.frames.some(({gap}) => gap === null)) throw new Strange("The server sent a frame without its gap.");
    this.addShades();
  }

  checkedSlot(slot) {
    if (slot < 1 || slot > this.cluster.static_slots) throw new Strange(`The cluster has no slot ${slot}.`);
    return slot;
  }

  grant({slot, channels, node, supplier}) { this.grants[laneOf(this.checkedSlot(slot), channels)] = {node, supplier}; }

  frame({frame: name, node, supplier}) {
    const key = keyOf({supplier, name}), frame = {name, node, supplier, at: this.frames.length, placements: [], signals: [], gap: null};
    if (this.byKey.has(key)) throw new Strange(`The frame ${name} was sent twice.`);
    this.byKey.set(key, frame);
    this.frames.push(frame);
  }

  // The frame that a row names. Rows of one frame stand together.
  frameOf({supplier, frame}) {
    if (this.last?.name !== frame || this.last.supplier !== supplier) this.last = this.frameNamed(supplier, frame);
    if (!this.last) throw new Strange(`The server sent a row without its frame: ${frame}.`);
    return this.last;
  }

  placement(row) {
    const {slot, channels, base, repetition} = row, placement = {slot, channels, base, repetition, frame: this.frameOf(row), shade: -1};
    if (this.cycles % repetition !== 0 || base >= repetition) throw new Strange("The server sent a placement without cycles.");
    placement.frame.placements.push(placement);
    this.placements.push(placement);
    for (const channel of channelsIn(channels)) this.fill(placement, channel);
  }

  fill(placement, channel) {
    const {frame} = placement, lane = laneOf(this.checkedSlot(placement.slot), channel), grant = this.grants[lane];
    const where = `slot ${placement.slot} on ${channel}`;
    if (grant?.node !== frame.node || grant.supplier !== frame.supplier) throw new Strange(`${frame.name}'s node does not hold ${where}.`);
    for (let cycle = placement.base; cycle < this.cycles; cycle += placement.repetition) {
      const cell = lane * this.cycles + cycle;
      if (this.cells[cell]) throw new Strange(`Two frames are sent in cycle ${cycle}, ${where}.`);
      this.cells[cell] = this.placements.length;
      this.load[lane] += 1;
    }
  }

  signal(row) {
    const {name, start, length, order} = row;
    this.frameOf(row).signals.push({name, start, length, order});
  }

  // Each frame has its gap, and it is that of its placements.
  gap(row) {
    const frame = this.frameOf(row);
    const isOwn = frame.gap === null && row.gap === gapOf(frame.placements, this.cluster);
    if (!isOwn) throw new Strange(`The gap of ${frame.name} is not that of its placements.`);
    frame.gap = row.gap;
  }

  // What is sent side by side in a lane has two shades in turn.
  addShades() {
    for (let lane = 0; lane < this.load.length; lane += 1) {
      let shade = 0;
      if (this.load[lane]) for (const placement of this.sentIn(lane)) if (placement.shade < 0) placement.shade = shade++ % 2;
    }
  }

  at(lane, cycle) { return this.placements[this.cells[lane * this.cycles + cycle] - 1] ?? null; }
  frameNamed(supplier, name) { return this.byKey.get(keyOf({supplier, name})) ?? null; }
  cyclesOf(placement) { return cyclesOf(placement, this.cycles); }
  gapWith(frame, placement) { return gapOf([...frame.placements, placement], this.cluster); }
  cellsOf(frame) { return frame.placements.reduce((sum, {repetition, channels}) => sum + this.cycles / repetition * channels.length, 0); }

  // The placements of a lane, in the order in which they are first sent.
  sentIn(lane) {
    const found = new Set(), begin = lane * this.cycles;
    for (let cell = begin; cell < begin + this.cycles; cell += 1) if (this.cells[cell]) found.add(this.placements[this.cells[cell] - 1]);
    return [...found];
  }

  lanesHeld() { return this.grants.reduce((sum, grant) => sum + (grant ? 1 : 0), 0); }
  cellsSent() { return this.load.reduce((sum, used) => sum + used, 0); }
}
