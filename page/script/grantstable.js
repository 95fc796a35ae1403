// A table of grants, pasted from a spreadsheet: what would change is shown first, then sent one by one.
import {button, longTable, make, note, refill, row, tableRow} from "./dom.js";
import {recordsOf} from "./csv.js";
import {isMade, send} from "./granting.js";
import {attempt, say} from "./messages.js";
import {channelsIn, laneOf, laneText} from "./plan.js";
import {reread} from "./reading.js";
import {grouped, plural, short} from "./words.js";

const HEADER = ["slot", "channel", "supplier", "node"];

export function grantsCard(desk) {
  const example = HEADER.join("\t") + "\n12\tAB\tbrakes\tbrake_unit";
  const text = make("textarea", {id: "grants-text", rows: 6, spellcheck: "false", autocapitalize: "none", placeholder: example});
  const whole = make("input", {type: "checkbox", id: "grants-whole"}), result = make("div", {tabindex: "-1"});
  const look = () => attempt(desk, () => showChanges(desk, text.value, whole.checked, result), "Comparing with the plan ...");
  const card = make("div", {class: "card", hidden: true, id: "grants-card"}, make("h2", {}, "Grants from a spreadsheet"),
    note(`Copy four columns, with their heads: ${HEADER.join(", ")}. A channel is A, B or AB; `
      + "a lane that nobody is to hold has neither supplier nor node."),
    make("label", {for: "grants-text"}, "Grants"), text,
    make("label", {class: "check"}, whole, "revoke the lanes that the table does not name"),
    row(button("Show what would change", look, {class: "main", id: "grants-look"})), result);
  const clear = () => { text.value = ""; result.replaceChildren(); };
  return {card, clear, show: () => { card.hidden = !desk.mayGrant(); }};
}

// The lanes that a pasted table names, each with who is to hold it, or what is wrong with a row.
function wantedIn(desk, text) {
  const comma = ["\t", ";", ","].find(one => text.includes(one)) ?? ",";
  const [head, ...records] = recordsOf(text, comma).map(record => record.map(field => field.trim()));
  const places = HEADER.map(name => (head ?? []).findIndex(field => field.toLowerCase().replace(/s$/, "") === name));
  if (places.includes(-1)) return {faults: [`The first line has to name the columns ${HEADER.join(", ")}.`], lanes: new Map()};
  const lanes = new Map(), faults = [];
  records.filter(record => record.some(Boolean)).forEach((record, at) => {
    const [slot, channels, supplier, node] = places.map(place => record[place] ?? "");
    const fault = faultOf(desk, slot, channels, supplier, node);
    if (fault) faults.push(`Row ${at + 2}: ${fault}`);
    else for (const channel of channelsIn(channels)) {
      const lane = laneOf(Number(slot), channel);
      if (lanes.has(lane)) faults.push(`Row ${at + 2}: slot ${laneText(lane)} stands twice.`);
      lanes.set(lane, supplier ? {supplier, node} : null);
    }
  });
  return {lanes, faults};
}

function faultOf({cluster, nodes}, slot, channels, supplier, node) {
  const isSlot = /^\d{1,4}$/.test(slot) && Number(slot) >= 1 && Number(slot) <= cluster.static_slots;
  if (!isSlot) return `the cluster has no slot ${short(slot) || "without a number"}.`;
  const isChannel = /^(A|B|AB)$/.test(channels) && cluster.channels.includes(channels);
  if (!isChannel) return `the cluster has no channel ${short(channels) || "without a name"}.`;
  if (!supplier && !node) return "";
  return nodes.some(one => one.supplier === supplier && one.node === node) ? "" : `${short(supplier)} has no node ${short(node)}.`;
}

// What has to be revoked and granted, lane by lane, so that the grants are as wanted.
function changesTo(plan, lanes, isWhole) {
  const changes = [];
  plan.grants.forEach((now, lane) => {
    const then = lanes.has(lane) ? lanes.get(lane) : isWhole ? null : now;
    if (now?.supplier === then?.supplier && now?.node === then?.node) return;
    if (now) changes.push({act: "revoke", lane, ...now});
    if (then) changes.push({act: "grant", lane, ...then});
  });
  return changes;
}

async function showChanges(desk, text, isWhole, box) {
  const {lanes, faults} = wantedIn(desk, text);
  if (faults.length) { refill(box, make("ul", {class: "fault"}, faults.slice(0, 20).map(fault => make("li", {}, fault)))); return; }
  await reread(desk);
  const changes = changesTo(desk.plan, lanes, isWhole);
  showList(desk, box, changes, 0);
}

// The list of changes, and how many of them were carried out. Where one was refused, the others can be sent without it.
function showList(desk, box, changes, count, isRefused = false) {
  const {variant} = desk, left = changes.slice(count);
  const go = async wanted => {
    if (desk.variant !== variant) { say("warn", `These changes are for ${variant}.`); return; }
    const sent = await send(desk, wanted), all = [...changes.slice(0, count), ...wanted];
    if (desk.variant !== variant) return;
    // Of a change without a reply the plan tells whether it was carried out.
    const isStopped = sent < wanted.length && !isMade(desk.plan, wanted[sent]);
    showList(desk, box, all, count + sent + (sent < wanted.length && !isStopped ? 1 : 0), isStopped);
    if (isStopped) box.scrollIntoView({block: "start"});
  };
  const without = isRefused ? left.filter(({lane}) => lane !== left[0].lane) : [];
  const said = !changes.length ? "Nothing would change."
    : left.length ? `${plural(left.length, "change")} of ${grouped(changes.length)} to be sent.` : "All are carried out.";
  refill(box, make("p", {}, make("strong", {}, said)),
    row(left.length ? button(`Send ${plural(left.length, "change")}`, () => go(left), {class: "main", id: "grants-send"}) : "",
      without.length ? button(`Leave ${laneText(left[0].lane)} out, and send the other ${without.length}`, () => go(without)) : ""),
    changes.length ? longTable(["lane", "what", "supplier", "node", ""], [...changes.entries()], ([at, change]) =>
      changeRow(desk, change, at < count ? "done" : at === count && isRefused ? "refused" : "")) : "");
}

function changeRow({plan}, {lane, act, supplier, node}, state) {
  const isUsed = act === "revoke" && plan.load[lane] > 0;
  return tableRow([laneText(lane), act, supplier, node, state || (isUsed ? "used: its supplier has to take its placements back first" : "")],
    state === "refused" ? "bad" : "");
}
