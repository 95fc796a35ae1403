// The list of frames beside the plan: search, order, and of each where it is sent and its gap.
import {button, byId, listen, make, options, refill, textField} from "./dom.js";
import {confirmed, say} from "./messages.js";
import {chip} from "./palette.js";
import {findRoom} from "./reading.js";
import {isName} from "./reports.js";
import {addFrame} from "./steps.js";
import {byText, grouped, plural, shortPlaceText} from "./words.js";

const LISTED = 300;
const byName = (one, other) => byText(one.name, other.name);
const ORDERS = {
  name: byName,
  gap: (one, other) => other.gap - one.gap || byName(one, other),
  node: (one, other) => byText(one.node, other.node) || byName(one, other),
};

export class FrameList {
  constructor(desk, palette) {
    Object.assign(this, {desk, palette, plan: null, orders: {}});
    listen("search", "input", () => this.search());
    listen("search", "keydown", event => { if (event.key === "Enter") byId("frames").querySelector("button")?.click(); });
    listen("order", "change", () => this.show());
    listen("add-frame", "click", () => askFrame(desk));
    listen("side-open", "click", () => this.open(!byId("side").classList.contains("open")));
    desk.on("plan", () => this.search());
    desk.on("choice look", () => { if (desk.plan) this.show(); });
    desk.on("left", () => this.clear());
  }

  clear() {
    for (const id of ["frames", "frames-note"]) byId(id).replaceChildren();
    byId("search").value = "";
    byId("add-frame").hidden = true;
    this.plan = null;
  }

  // On a narrow screen the list stands behind a button.
  open(isOpen) {
    byId("side").classList.toggle("open", isOpen);
    byId("side-open").setAttribute("aria-expanded", String(isOpen));
    if (isOpen) byId("search").focus();
  }

  // The frames in an order that is made once a plan.
  ordered() {
    const {plan} = this.desk, order = byId("order").value;
    if (this.plan !== plan) {
      const words = plan.frames.map(({name, node, supplier}) => `${name} ${node} ${supplier}`.toLowerCase());
      Object.assign(this, {plan, words, orders: {}});
    }
    return this.orders[order] ??= [...plan.frames].sort(ORDERS[order]);
  }

  search() {
    const {desk} = this, wanted = byId("search").value.trim().toLowerCase();
    if (!desk.plan) return;
    this.ordered();
    desk.found = wanted ? new Set(desk.plan.frames.filter(({at}) => this.words[at].includes(wanted))) : null;
    this.show();
    desk.tell("lanes");
  }

  show() {
    const {desk} = this, frames = desk.found ? this.ordered().filter(frame => desk.found.has(frame)) : this.ordered();
    refill(byId("frames"), frames.slice(0, LISTED).map(frame => make("li", {}, this.entry(frame))));
    const more = frames.length > LISTED ? `; ${LISTED} are shown. Search for the others.` : "";
    byId("frames-note").textContent = plural(frames.length, "frame") + more;
    byId("side-open").textContent = `Frames (${grouped(frames.length)})`;
    byId("add-frame").hidden = !desk.mayPlan();
  }

  entry(frame) {
    const {desk} = this, {placements} = frame;
    const where = placements.slice(0, 2).map(shortPlaceText).join(", ") + (placements.length > 2 ? " ..." : "");
    return make("button", {type: "button", "aria-current": frame === desk.frame ? "true" : null, onclick: () => this.chosen(frame)},
      chip(this.palette.number(frame, frame)), make("b", {title: frame.name}, frame.name),
      make("small", {}, where || "not placed", ", gap ", make("span", {class: frame.gap === Infinity ? "never" : ""}, desk.times.number(frame.gap))));
  }

  chosen(frame) {
    const {desk} = this, [first] = frame.placements;
    this.open(false);
    if (["files", "diff", "manage"].includes(desk.view)) desk.show("plan");
    const {room} = desk;
    desk.choose({frame});
    // Placing goes on with the other frame, and the plan stays where it is.
    if (room) {
      findRoom(desk, room.repetition, room.channels);
      desk.tell("mode");
    } else if (first && desk.view === "plan") desk.reveal(first.slot, first.channels[0], first.base);
    byId("detail").scrollIntoView({block: "nearest"});
  }
}

// What was typed and is no name is asked for again.
async function askFrame(desk, typed = null) {
  if (!desk.nodes.length) { say("warn", "You have no node yet, and each frame is sent by one. The integrator adds nodes."); return; }
  const name = textField({id: "frame-name", value: typed ?? ""}), node = make("select", {id: "frame-node"});
  options(node, desk.nodes.map(one => [one.node, one.node]));
  const form = make("form", {class: "form", onsubmit: event => { event.preventDefault(); byId("dialog").close("yes"); }},
    make("label", {for: "frame-name"}, "Name"), name, make("label", {for: "frame-node"}, "Node"), node);
  const fault = typed !== null && make("p", {class: "fault", role: "alert"},
    `${typed || "An empty text"} is no name. A name has 1 to 32 letters, digits and underscores, a letter first.`);
  if (!await confirmed("New frame", [form, fault || ""], "Add it")) return;
  if (isName(name.value)) addFrame(desk, name.value, node.value);
  else askFrame(desk, name.value);
}
