// Colours and letters, which tell suppliers, nodes or frames apart.
import {make} from "./dom.js";
import {fillBox, strokeLines} from "./ink.js";

const COLOURS = ["#56B4E9", "#E69F00", "#009E73", "#F0E442", "#CC79A7", "#D55E00", "#0072B2", "#882255"];
const LETTERS = "abcdefghijklmnopqrstuvwxyzABCDEFGHIJKLMNOPQRSTUVWXYZ0123456789+=";
const PLAIN = "#9aa3b0";

const channelsOf = colour => [1, 3, 5].map(at => parseInt(colour.slice(at, at + 2), 16));
const mixed = (colour, other, share) => "#" + channelsOf(colour)
  .map((part, at) => Math.round(part * (1 - share) + channelsOf(other)[at] * share).toString(16).padStart(2, "0")).join("");

const remembered = (of, kept = new Map()) => colour => {
  if (!kept.has(colour)) kept.set(colour, of(colour));
  return kept.get(colour);
};
export const softened = remembered(colour => mixed(colour, "#ffffff", 0.45));
const shaded = remembered(colour => mixed(colour, "#ffffff", 0.28));

// Black or white, whichever has more contrast on a colour (relative luminance).
export const inkOn = remembered(colour => {
  const [red, green, blue] = channelsOf(colour).map(part => part / 255).map(part => part <= 0.04045 ? part / 12.92 : ((part + 0.055) / 1.055) ** 2.4);
  return red * 0.2126 + green * 0.7152 + blue * 0.0722 > 0.179 ? "#000" : "#fff";
});

// The colour of a number: the first eight are those of the picture, the next ones are darker, then lighter.
export function colourOf(number) {
  const round = Math.floor(number / 8) % 3, colour = COLOURS[number % 8];
  return round === 0 ? colour : mixed(colour, round === 1 ? "#000000" : "#ffffff", 0.4);
}
const letterOf = number => LETTERS[number % LETTERS.length];

export function chip(number) {
  const made = make("span", {class: "chip", "aria-hidden": "true"}, letterOf(number));
  made.style.background = colourOf(number);
  made.style.color = inkOn(colourOf(number));
  return made;
}

// The colours of a plan, by what the user chose to tell apart.
export class Palette {
  constructor(desk) {
    this.desk = desk;
    this.patterns = new Map();
  }

  // The number of a frame, or of who holds a lane.
  number(holder, frame) {
    const {look, plan, nodes} = this.desk;
    if (look.colourBy === "frame" && frame) return frame.at;
    if (look.colourBy === "node") return this.nodeNumbers(nodes).get(`${holder.supplier} ${holder.node}`) ?? 0;
    return plan.suppliers.get(holder.supplier) ?? 0;
  }

  nodeNumbers(nodes) {
    if (this.numbered !== nodes) {
      this.numbered = nodes;
      this.numbers = new Map(nodes.map(({node, supplier}, at) => [`${supplier} ${node}`, at]));
    }
    return this.numbers;
  }

  ofLane(grant) { return this.desk.look.colourBy === "frame" ? PLAIN : colourOf(this.number(grant, null)); }
  letter(grant) { return this.desk.look.colourBy === "frame" ? "" : letterOf(this.number(grant, null)); }

  ofPlacement({frame, shade}) {
    const colour = colourOf(this.number(frame, frame));
    return shade === 1 ? shaded(colour) : colour;
  }

  // What is granted, and in which nothing is sent.
  hatch(ink, colour) {
    if (!this.patterns.has(colour)) {
      const tile = make("canvas", {width: 8, height: 8}), on = tile.getContext("2d");
      fillBox(on, "#fff", 0, 0, 8, 8);
      strokeLines(on, colour, [-1, 5, 5, -1], [3, 9, 9, 3]);
      this.patterns.set(colour, ink.createPattern(tile, "repeat"));
    }
    return this.patterns.get(colour);
  }
}
