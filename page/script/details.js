// What is said of what was chosen: a frame, a lane, or else the variant.
import {button, byId, make, note, options, pairs, refill, table, tableRow} from "./dom.js";
import {divisors} from "./cycles.js";
import {revoke} from "./granting.js";
import {confirmed, quiet, say} from "./messages.js";
import {chip} from "./palette.js";
import {payloadOf} from "./payload.js";
import {channelOf, laneText, slotOf} from "./plan.js";
import {findRoom} from "./reading.js";
import {isFull} from "./room.js";
import {dropFrame, unplace} from "./steps.js";
import {cyclesText, grouped, placeText, plural} from "./words.js";

export function details(desk, palette) {
  const show = () => {
    if (!desk.plan) return;
    if (desk.frame) showFrame(desk, palette, desk.frame);
    else if (desk.lane !== null) refill(byId("detail"), laneDetails(desk, desk.lane));
    else refill(byId("detail"), variantDetails(desk));
  };
  desk.on("plan choice mode look", show);
  desk.on("left", () => byId("detail").replaceChildren());
}

const link = (text, onclick) => button(text, onclick, {class: "link"});

function variantDetails(desk) {
  const {plan} = desk, held = plan.lanesHeld(), never = plan.frames.filter(({gap}) => gap === Infinity);
  return [make("h2", {}, `Variant ${desk.variant}`),
    pairs([["frames", grouped(plan.frames.length)], ["not placed", never.length ? grouped(never.length) : "none"],
      ["lanes", `${grouped(held)} granted`], ["cells", `${grouped(plan.cellsSent())} of ${grouped(held * plan.cycles)} used`]]),
    desk.isOpen() ? "" : make("p", {}, "The variant is released: it never changes again."),
    note(plan.frames.length ? "Choose a frame in the list, or a cell of the plan." : ""), lacking(desk, held),
    never.length ? [make("h3", {}, "Not placed yet"),
      make("ul", {}, never.slice(0, 30).map(frame => make("li", {}, link(frame.name, () => desk.choose({frame})))))] : ""];
}

// What has to be done first in a plan that is empty yet.
function lacking(desk, held) {
  const {isIntegrator, nodes, plan} = desk, said = (toIntegrator, toSupplier) => note(isIntegrator ? toIntegrator : toSupplier);
  if (!desk.isOpen()) return "";
  if (!nodes.length) return said("No supplier has a node yet. Add one, under Cluster.", "You have no node yet. The integrator adds nodes.");
  if (!held) {
    return said("No lane is granted yet. Choose a node above the plan, and press Grant by click.",
      "No lane is granted to you yet. The integrator grants lanes.");
  }
  return plan.frames.length ? "" : said("There is no frame yet.", "You have no frame yet. Press New frame, or drop a file under Files.");
}

function laneDetails(desk, lane) {
  const {plan} = desk, grant = plan.grants[lane], sent = plan.sentIn(lane);
  const holder = grant ? `${grant.node}${desk.isIntegrator ? " of " + grant.supplier : ""}` : desk.isIntegrator ? "nobody" : "not to you";
  return [make("h2", {}, `Slot ${laneText(lane)}`),
    pairs([["granted to", holder], ["begins", `${desk.times.text((slotOf(lane) - 1) * plan.cluster.slot_macroticks)} after the cycle`],
      ["load", `${plan.load[lane]} of ${plan.cycles} cycles`]]),
    sent.length ? [make("h3", {}, "Sent here"), table(["frame", "base/rep.", "on"], sent.map(placement => tableRow([
      link(placement.frame.name, () => desk.choose({frame: placement.frame, placement})), cyclesText(placement), placement.channels])))] : "",
    desk.mayGrant() && grant ? button(`Revoke it from ${grant.node}`, () => revoke(desk, lane), {class: "bad"}) : "",
    grant ? button("Show it in the plan", () => desk.reveal(slotOf(lane), channelOf(lane), 0)) : ""];
}

function showFrame(desk, palette, frame) {
  const isOpen = desk.mayPlan();
  refill(byId("detail"),
    make("h2", {}, chip(palette.number(frame, frame)), frame.name),
    pairs([["node", frame.node], desk.isIntegrator && ["supplier", frame.supplier],
      ["greatest gap", frame.gap === Infinity ? "never sent" : desk.times.text(frame.gap)], ["sent in", plural(desk.plan.cellsOf(frame), "cell")]]),
    frame.placements.length ? placementTable(desk, frame, isOpen) : note("It is not placed yet."),
    isOpen ? roomForm(desk, frame) : "", make("h3", {}, "Payload"), payloadOf(desk, frame),
    isOpen ? button("Drop the frame", () => askDrop(desk, frame), {class: "bad"}) : "");
}

function placementTable(desk, frame, isOpen) {
  return table(["placement", ["load", "num"], ""], frame.placements.map(placement => tableRow([
    link(placeText(placement), () => { desk.choose({frame, placement}); desk.reveal(placement.slot, placement.channels[0], placement.base); }),
    [`${desk.plan.cycles / placement.repetition} of ${desk.plan.cycles}`, "num"],
    isOpen ? button("Unplace", () => unplace(desk, frame, placement),
      {class: placement === desk.placement ? "bad main" : "bad", "aria-label": `Unplace ${frame.name} from ${placeText(placement)}`}) : ""])));
}

function roomForm(desk, frame) {
  const {plan, room} = desk, {channels} = plan.cluster, [first] = frame.placements;
  if (isFull(frame)) return note("It has 8 placements, which is the most.");
  const repetition = make("select", {id: "repetition"}), on = make("select", {id: "place-channels"});
  options(repetition, divisors(plan.cycles).map(number => [String(number), `${number}: every ${number === 1 ? "cycle" : number + " cycles"}`]),
    String(room?.repetition ?? first?.repetition ?? plan.cycles));
  options(on, channels === "AB" ? [["A", "A"], ["B", "B"], ["AB", "A and B"]] : [[channels, channels]], room?.channels ?? first?.channels);
  const show = () => showRoom(desk, Number(repetition.value), on.value);
  for (const select of [repetition, on]) select.addEventListener("change", () => { if (desk.room) show(); });
  return make("form", {class: "form", onsubmit: event => { event.preventDefault(); show(); }},
    make("label", {for: "repetition"}, "Repetition"), repetition, make("label", {for: "place-channels"}, "Channels"), on,
    make("button", {type: "submit", class: "main wide", id: "show-room"}, room ? "Show again where it fits" : "Show where it fits"));
}

// Marks in the grid where a frame fits, and shows the first such cell.
function showRoom(desk, repetition, channels) {
  findRoom(desk, repetition, channels);
  const {room} = desk;
  if (desk.view !== "plan") desk.show("plan");
  desk.tell("mode");
  if (!room) return;
  const first = [...room.bases.keys()].find(key => key === parseInt(key, 10) + channels);
  if (first) desk.reveal(parseInt(first, 10), channels[0], Math.min(...room.bases.get(first)));
  if (room.count) quiet();
  else say("warn", `${room.frame.name} fits nowhere with repetition ${repetition} on ${channels}. Another repetition, or a lane more, may help.`);
}

async function askDrop(desk, frame) {
  const text = `The frame, its ${plural(frame.placements.length, "placement")} and its signals are gone then. `
    + "Undo brings them back.";
  if (await confirmed(`Drop ${frame.name}?`, text, "Drop it")) dropFrame(desk, frame.name);
}
