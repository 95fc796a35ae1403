// The plan's view around the grid: its tools, the bar of what is being done, and the legend.
import {button, byId, listen, make, options} from "./dom.js";
import {granted, send, setGranting, wantedOf} from "./granting.js";
import {chip} from "./palette.js";
import {laneText} from "./plan.js";
import {openHistory, redo, undo} from "./turning.js";
import {byText, plural} from "./words.js";

export function planView(desk, grid, palette) {
  listenToTools(desk, grid);
  desk.on("register plan mode difference undo", () => { if (desk.plan) showTools(desk); });
  desk.on("plan mode choice lanes", () => showMode(desk));
  desk.on("register plan look", () => { if (desk.plan) showLegend(desk, palette); });
  desk.on("left", () => { byId("legend").replaceChildren(); byId("mode").hidden = true; });
}

function listenToTools(desk, grid) {
  const looks = (id, take) => listen(id, "change", ({target}) => { take(target); desk.tell("look"); });
  looks("shown", ({value}) => { desk.look.channels = value; });
  looks("colour-by", ({value}) => { desk.look.colourBy = value; });
  looks("tall", ({checked}) => { desk.look.isTall = checked; });
  looks("fold", ({checked}) => { desk.look.folds = checked; });
  looks("mark", ({checked}) => { desk.look.marks = checked; });
  listen("narrower", "click", () => grid.zoom(-1));
  listen("wider", "click", () => grid.zoom(1));
  listen("fit", "click", () => grid.setWidth(grid.widest()));
  listen("undo", "click", () => undo(desk));
  listen("redo", "click", () => redo(desk));
  listen("history", "click", () => openHistory(desk));
  listen("grant-mode", "click", () => setGranting(desk, !desk.granting));
  listen("grant-to", "change", ({target}) => { desk.grantTo = Number(target.value); desk.tell("lanes"); });
  desk.on("look", () => { byId("fold").checked = desk.look.folds; byId("mark").checked = desk.look.marks; });
}

function showTools(desk) {
  const {channels} = desk.cluster;
  options(byId("shown"), channels === "AB" ? [["AB", "A and B"], ["A", "A"], ["B", "B"]] : [[channels, channels]], byId("shown").value || channels);
  byId("fold-text").textContent = desk.isIntegrator ? "fold slots that nobody holds" : "fold slots that are not yours";
  byId("colour-by").value = desk.look.colourBy;
  byId("mark-label").hidden = !desk.difference;
  byId("grant-tools").hidden = !desk.mayGrant();
  options(byId("grant-to"), desk.nodes.map(({node, supplier}, at) => [String(at), `${node} of ${supplier}`]), byId("grant-to").value);
  desk.grantTo = Number(byId("grant-to").value);
  byId("grant-mode").setAttribute("aria-pressed", String(Boolean(desk.granting)));
  byId("grant-mode").disabled = !desk.nodes.length;
  showHistory(desk);
}

function showHistory(desk) {
  const history = desk.history();
  for (const [id, isBack, word, keys] of [["undo", true, "Undo", "Ctrl+Z"], ["redo", false, "Redo", "Ctrl+Y"]]) {
    const step = desk.isOpen() ? history.next(isBack) : null;
    byId(id).disabled = !step;
    byId(id).title = step ? `${word} (${keys}): ${step.label}` : `There is nothing to ${word.toLowerCase()}`;
  }
  byId("history").textContent = `Steps (${history.done.length})`;
}

function showMode(desk) {
  const box = byId("mode"), {room, granting} = desk;
  box.hidden = !desk.plan || !(room || granting);
  if (room) {
    const where = room.count ? `fits in ${plural(room.count, "place")}. Click where a + stands.` : "fits nowhere.";
    box.replaceChildren(make("strong", {}, `Place ${room.frame.name}`),
      make("span", {}, `Repetition ${room.repetition} on ${room.channels}: ${where}`), button("Done", () => endMode(desk)));
  } else if (granting) showGranting(desk, box);
}

function showGranting(desk, box) {
  const to = granted(desk), {lanes} = desk.granting;
  const end = button("Done", () => endMode(desk));
  if (!to || lanes.length < 2) {
    box.replaceChildren(make("strong", {}, "Grant lanes"),
      make("span", {}, "Click a lane to grant or to revoke it, or draw over several. By keys: Enter, or Shift and arrows."), end);
    return;
  }
  const {grants, revokes, others} = wantedOf(desk, lanes);
  const go = (word, changes) => changes.length
    ? button(`${word} ${plural(changes.length, "lane")}`, () => sendPicked(desk, changes), {class: "main"}) : "";
  box.replaceChildren(make("strong", {}, `${laneText(lanes[0])} to ${laneText(lanes.at(-1))}`),
    make("span", {}, `${grants.length} free, ${revokes.length} of ${to.node}, ${others} of others, which stay.`),
    go("Grant", grants), go("Revoke", revokes), button("Choose others", () => pickNone(desk)), end);
}

function pickNone(desk) {
  desk.granting.lanes = [];
  desk.tell("lanes");
}

async function sendPicked(desk, changes) {
  await send(desk, changes);
  if (desk.granting) pickNone(desk);
}

// Ends placing or granting.
export function endMode(desk) {
  if (!desk.room && !desk.granting) return;
  Object.assign(desk, {room: null, granting: null});
  desk.tell("mode");
}

const IN_LEGEND = 64;
function showLegend(desk, palette) {
  const {plan, look} = desk, holders = new Map();
  const named = ({node, supplier}) => look.colourBy !== "node" ? supplier : desk.isIntegrator ? `${node} of ${supplier}` : node;
  plan.grants.forEach((grant, lane) => {
    if (!grant) return;
    const holder = holders.get(named(grant)) ?? {grant, lanes: 0, cells: 0};
    holders.set(named(grant), Object.assign(holder, {lanes: holder.lanes + 1, cells: holder.cells + plan.load[lane]}));
  });
  const entryOf = ([name, {grant, lanes, cells}]) => make("span", {}, look.colourBy === "frame" ? "" : chip(palette.number(grant, null)),
    `${name}: ${plural(lanes, "lane")}, ${Math.round(100 * cells / (lanes * plan.cycles))} % used`);
  const entries = [...holders].sort(([one], [other]) => byText(one, other)).slice(0, IN_LEGEND).map(entryOf);
  byId("legend").replaceChildren(...entries,
    make("span", {class: "note"}, "Hatched: granted, nothing sent. Crossed: not granted. In a slot A stands left, B right."));
}
