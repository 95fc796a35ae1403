// The plan as tables: its frames, those with the largest gap first, and its lanes.
import {button, byId, longTable, make, note, row, tableRow} from "./dom.js";
import {usedBits} from "./bits.js";
import {channelOf, laneText, slotOf} from "./plan.js";
import {byText, cyclesText, firstOf, grouped, shortPlaceText} from "./words.js";

export function tables(desk) {
  desk.on("plan view look", () => {
    if (desk.hasView("frames")) showFrames(desk);
    if (desk.hasView("lanes")) showLanes(desk);
  });
  desk.on("left", () => { for (const id of ["view-frames", "view-lanes"]) byId(id).replaceChildren(); });
}

const ofSupplier = (desk, text) => desk.isIntegrator ? text : null;

function showFrames(desk) {
  const {plan} = desk, frames = [...plan.frames].sort((one, other) => other.gap - one.gap || byText(one.name, other.name));
  const rowOf = frame => tableRow([button(frame.name, () => desk.choose({frame}), {class: "link"}), frame.node, ofSupplier(desk, frame.supplier),
    frame.placements.map(shortPlaceText).join("; "),
    [desk.times.number(frame.gap), frame.gap === Infinity ? "num never" : "num"], [signalsText(frame.signals), "code"]]);
  byId("view-frames").replaceChildren(
    row(make("h2", {}, `Frames of ${desk.variant}`),
      make("span", {class: "note"}, "Frames that are never sent first, then those with the largest gap.")),
    longTable(["frame", "node", ofSupplier(desk, "supplier"), "placements", [`greatest gap, ${desk.times.unit}`, "num"], "signals: start+bits"],
      frames, rowOf));
}

const signalsText = signals => signals.length ? `${usedBits(signals)} bits: `
  + signals.map(({name, start, length, order}) => `${name}:${start}+${length}${order === "big" ? " big" : ""}`).join(" ") : "";

function showLanes(desk) {
  const {plan} = desk, lanes = [...plan.grants.keys()].filter(lane => plan.grants[lane]);
  const all = plan.cluster.static_slots * plan.cluster.channels.length;
  byId("view-lanes").replaceChildren(make("h2", {}, `Lanes of ${desk.variant}`),
    note(`${grouped(lanes.length)} of ${grouped(all)} lanes are granted${desk.isIntegrator ? "" : " to you"}. `
      + "The load is the number of cycles in which something is sent."),
    longTable(["lane", "node", ofSupplier(desk, "supplier"), "load", "sent: base/repetition, frame"], lanes, lane => laneRow(desk, lane)));
}

function laneRow(desk, lane) {
  const {plan} = desk, {node, supplier} = plan.grants[lane], part = make("i", {});
  part.style.width = `${100 * plan.load[lane] / plan.cycles}%`;
  const show = () => { desk.choose({lane}); desk.reveal(slotOf(lane), channelOf(lane), 0); };
  return tableRow([button(laneText(lane), show, {class: "link"}), node, ofSupplier(desk, supplier),
    make("div", {class: "line"}, make("span", {class: "bar", "aria-hidden": "true"}, part), ` ${plan.load[lane]} of ${plan.cycles}`),
    firstOf(plan.sentIn(lane).map(placement => `${cyclesText(placement)} ${placement.frame.name}`), 12)]);
}
