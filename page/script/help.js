// The window of help: what the plan's signs mean, and the keys.
import {button, byId, make, table, tableRow} from "./dom.js";
import {openDialog} from "./messages.js";

const KEYS = [
  ["Arrows", "to the next cycle or lane of the plan"], ["Page Up, Page Down", "eight cycles"], ["Home, End", "the first lane, the last"],
  ["Enter", "choose the cell; place or grant there"], ["n", "the next cell in which the frame fits"],
  ["+ - 0", "wider lanes, narrower ones, all slots in the window"],
  ["Esc", "end placing or granting"], ["/", "search a frame"], ["Ctrl+Z", "undo the last step"], ["Ctrl+Y", "do it again; Ctrl+Shift+Z too"],
];
const FOR_INTEGRATORS = ["Shift and arrows", "choose several lanes while lanes are granted"];

export function openHelp(desk) {
  const keys = desk.isIntegrator ? [...KEYS, FOR_INTEGRATORS] : KEYS;
  openDialog("Keys and signs", [
    make("p", {}, "Cycles go down, slots across. A slot has a lane for each channel, A left and B right; "
      + "what is sent on both is as wide as the slot. The letter above a lane tells who holds it, the bar below how many cycles are used."),
    make("p", {}, "A frame is placed so: choose it in the list, choose its repetition and channels, "
      + "press the button that shows where it fits, and click a cell with a plus."),
    table(["key", "what it does"], keys.map(([key, text]) => tableRow([make("kbd", {}, key), text]))),
    make("menu", {}, button("Close", () => byId("dialog").close(), {class: "main"}))]);
}
