// The top of the page: the variant that is shown, the views, who asks, the cluster's figures, and how times are told.
import {addressed} from "./address.js";
import {indented, inTree} from "./cluster.js";
import {button, byId, listen, options} from "./dom.js";
import {openHelp} from "./help.js";
import {bySomebody} from "./meanwhile.js";
import {stored} from "./login.js";
import {attempt, hideTip, nothingChanged, quiet, quietGood, say} from "./messages.js";
import {choose, refresh} from "./reading.js";
import {grouped} from "./words.js";

// How long a macrotick is stays as the page is loaded again.
const MACROTICK = "slotplan macrotick " + location.pathname;
const VIEWS = [["plan", "Plan"], ["frames", "Frames"], ["lanes", "Lanes"], ["files", "Files"], ["diff", "Differences"], ["manage", "Cluster"]];
// Views that use the whole width.
const WIDE = ["files", "diff", "manage"];

export function topBar(desk) {
  addTabs(desk);
  listen("variant", "change", ({target}) => show(desk, target.value));
  listen("reload", "click", () => attempt(desk, async () => {
    const changed = await refresh(desk);
    say("good", "The plan is read again." + (changed ? bySomebody(changed) : nothingChanged));
  }, "Reading the plan again ..."));
  listen("help-open", "click", () => openHelp(desk));
  listen("leave", "click", () => desk.leave());
  listenToTimes(desk);
  desk.on("register plan", () => showVariants(desk));
  desk.on("register plan look", () => showFigures(desk));
  addressed(desk);
  desk.on("view plan", () => showView(desk));
  desk.on("view", quietGood);
  desk.on("left", () => { byId("figures").textContent = ""; });
}

async function show(desk, variant) {
  quiet();
  await attempt(desk, () => choose(desk, variant), `Reading ${variant} ...`);
  if (desk.register) showVariants(desk);
}

function listenToTimes(desk) {
  const take = () => {
    const isLong = byId("times").value === "ms", microseconds = Number(byId("macrotick").value.replace(",", "."));
    byId("macrotick-label").hidden = !isLong;
    desk.times.microseconds = isLong && microseconds > 0 && microseconds <= 1000 ? microseconds : 0;
    desk.tell("look");
    stored(storage => desk.times.microseconds ? storage.setItem(MACROTICK, String(desk.times.microseconds)) : storage.removeItem(MACROTICK));
  };
  const kept = stored(storage => storage.getItem(MACROTICK));
  if (kept) {
    Object.assign(byId("times"), {value: "ms"});
    byId("macrotick").value = kept;
    take();
  }
  listen("times", "change", take);
  listen("macrotick", "input", take);
}

function addTabs(desk) {
  const tabs = byId("tabs");
  for (const [view, text] of VIEWS) {
    tabs.append(button(text, () => desk.show(view), {role: "tab", id: `tab-${view}`, "aria-controls": `view-${view}`}));
  }
  tabs.addEventListener("keydown", event => {
    const step = {ArrowRight: 1, ArrowLeft: -1}[event.key], there = VIEWS.filter(([view]) => !byId(`tab-${view}`).disabled);
    if (!step) return;
    const at = there.findIndex(([view]) => view === desk.view), [to] = there[(at + step + there.length) % there.length];
    desk.show(to);
    byId(`tab-${to}`).focus();
  });
}

function showView(desk) {
  for (const [name] of VIEWS) {
    byId(`view-${name}`).hidden = name !== desk.view;
    const tab = byId(`tab-${name}`);
    tab.setAttribute("aria-selected", String(name === desk.view));
    tab.tabIndex = name === desk.view ? 0 : -1;
    tab.disabled = name !== "manage" && !desk.plan;
  }
  hideTip();
  byId("detail").hidden = WIDE.includes(desk.view);
  byId("columns").classList.toggle("wide", byId("detail").hidden);
}

function showVariants(desk) {
  const entry = desk.entry(), tag = byId("variant-state");
  const values = inTree(desk).map(variant => [variant.name, `${indented(variant)}${variant.isReleased ? "" : " (open)"}`]);
  options(byId("variant"), values.length ? values : [["", "none"]], desk.variant);
  tag.className = entry?.isReleased ? "tag released" : "tag";
  tag.textContent = !entry ? "" : entry.isReleased ? "released" : "open";
  tag.title = !entry ? "" : entry.isReleased ? "It never changes again." : "It may be changed.";
  byId("who").textContent = desk.isIntegrator ? "integrator" : desk.me;
  document.title = `${desk.variant ?? "no variant"} - slotplan`;
}

function showFigures(desk) {
  const {cluster, times} = desk, entry = desk.entry();
  byId("figures").textContent = `Channels ${cluster.channels}. ${cluster.cycles} cycles of ${times.text(cluster.macroticks_per_cycle)}. `
    + `${grouped(cluster.static_slots)} static slots of ${times.number(cluster.slot_macroticks)}; `
    + `dynamic segment ${times.number(cluster.dynamic_macroticks)}, symbol window ${times.number(cluster.symbol_macroticks)}, `
    + `idle time ${times.number(cluster.idle_macroticks)}. Payload ${grouped(cluster.payload_words * 2)} bytes.`
    + (entry ? ` ${entry.name}: depth ${entry.depth}, ${entry.parent ? "opened from " + entry.parent : "without a parent"}.` : "");
}
