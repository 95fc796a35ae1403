// The view of the cluster: its variants, suppliers and nodes; the integrator adds to them, and releases.
import {button, byId, card, make, options, refill, row, table, tableRow, textField} from "./dom.js";
import {grantsCard} from "./grantstable.js";
import {attempt, confirmed, inTurn, say} from "./messages.js";
import {chip} from "./palette.js";
import {choose, readRegister} from "./reading.js";
import {done} from "./steps.js";

export function clusterView(desk) {
  const forms = [openForm, nodeForm, supplierForm, keyForm].map(form => form(desk)), pasted = grantsCard(desk);
  const show = () => {
    if (!desk.register || desk.view !== "manage") return;
    for (const form of forms) form.show();
    refill(byId("manage-lists"), variantsCard(desk), nodesCard(desk), desk.isIntegrator ? releaseCard(desk) : "");
    byId("manage-forms").hidden = !desk.isIntegrator;
    pasted.show();
  };
  byId("manage-forms").append(...forms.map(form => form.card), pasted.card);
  desk.on("register plan view entered", show);
  desk.on("left", () => {
    byId("manage-lists").replaceChildren();
    for (const box of document.querySelectorAll("#manage-forms .key")) box.remove();
    for (const form of forms) form.card.reset();
    pasted.clear();
  });
}

// Variants as a tree: each behind its parent.
export function inTree({variants}) {
  const found = [];
  const walk = parent => {
    for (const variant of variants.filter(one => one.parent === parent)) { found.push(variant); walk(variant.name); }
  };
  walk(null);
  return found.length === variants.length ? found : variants;
}

export const indented = ({name, depth}) => "\u00a0\u00a0".repeat(Math.max(0, depth - 1)) + name;

function variantsCard(desk) {
  const show = ({name}) => button("Show", () => attempt(desk, () => choose(desk, name), `Reading ${name} ...`), {"aria-label": `Show ${name}`});
  const rowOf = variant => tableRow([indented(variant), variant.parent ?? "-", [variant.depth, "num"], variant.isReleased ? "released" : "open",
    variant.name === desk.variant ? "shown" : show(variant)]);
  return card("Variants", table(["variant", "parent", ["depth", "num"], "state", ""], inTree(desk).map(rowOf)));
}

function nodesCard(desk) {
  const {cluster, nodes} = desk, of = name => nodes.filter(({supplier}) => supplier === name).map(({node}) => node);
  if (!desk.isIntegrator) return card("Your nodes", make("ul", {}, nodes.map(({node}) => make("li", {}, node))));
  return card("Suppliers and nodes", table(["supplier", "nodes"], cluster.suppliers.map((name, at) =>
    tableRow([make("span", {class: "line"}, chip(at), " " + name), of(name).join(", ") || "none"]))));
}

function releaseCard(desk) {
  const {variant} = desk, open = desk.isOpen();
  const release = async () => {
    const text = "Grants, frames, placements and signals stay as they are for ever. There is no way back.";
    if (await confirmed(`Release ${variant}?`, text, "Release it", variant)) change(desk, {do: "release", variant}, `${variant} is released.`);
  };
  return card(`Release ${variant ?? "a variant"}`,
    make("p", {}, !variant ? "There is none." : open ? "It never changes again then. Others can be opened from it." : "It is released already."),
    variant && open ? button("Release it ...", release, {class: "bad", id: "release"}) : "");
}

// Carries out a command on the cluster, and reads what it changed. What is said of a key stays until it is closed.
// A new key is shown here until it is put away, whatever else is said.
function keyBox(desk, {supplier, key}) {
  const shown = make("input", {readonly: "", value: key, class: "code", "aria-label": `The key of ${supplier}`});
  const copy = async () => {
    shown.select();
    try { await navigator.clipboard.writeText(key); say("good", "The key is copied."); } catch { say("warn", "Press Ctrl+C: the key is chosen."); }
  };
  const box = make("div", {class: "card key"}, make("h2", {}, `The key of ${supplier}`), shown,
    row(button("Copy it", copy, {class: "main"}), button("I have it", () => box.remove())));
  byId("manage-forms").prepend(box);
}

const change = (desk, request, text, then) => inTurn(desk, () => attempt(desk, async () => {
  await desk.register.command(request);
  await readRegister(desk);
  if (then) await then();
  else if (desk.plan) desk.tell("plan");
  if (request.key) keyBox(desk, request);
  done(desk, text, null, request.key ? "warn" : "good");
  return true;
}, "Sending ..."));

// A form of named fields, which are emptied once it was carried out.
function formCard(title, fields, yes, act, more = "") {
  const rows = Object.entries(fields).map(([key, [text, input]]) => {
    input.id = `form-${title.replace(/\W/g, "")}-${key}`;
    return [make("label", {for: input.id}, text), input];
  });
  const values = () => Object.fromEntries(Object.entries(fields).map(([key, [, input]]) => [key, input.value]));
  const card = make("form", {class: "card", novalidate: "", onsubmit: async event => {
    event.preventDefault();
    if (await act(values())) card.reset();
  }}, make("h2", {}, title), make("div", {class: "form"}, rows), row(make("button", {type: "submit"}, yes), more));
  return card;
}

const select = () => make("select", {});

function openForm(desk) {
  const from = select(), flat = make("input", {type: "checkbox", id: "flat"});
  const open = ({name: variant, from: parent}) => change(desk,
    {do: "open_variant", variant, from: parent || null, flat: Boolean(parent) && flat.checked}, `${variant} is open.`, () => choose(desk, variant));
  const card = formCard("Open a variant", {name: ["Name", textField({})], from: ["Begins", from]}, "Open it", open,
    make("label", {class: "check"}, flat, "flat: no parent, depth 1"));
  const parents = () => desk.variants.filter(({isReleased}) => isReleased).map(({name}) => [name, `with the rows of ${name}`]);
  const look = () => { flat.disabled = !from.value; };
  from.addEventListener("change", look);
  card.addEventListener("reset", () => { flat.disabled = true; });
  const show = () => { options(from, [["", "empty"], ...parents()], from.value); look(); };
  return {card, show};
}

const suppliersInto = (desk, list) => () => options(list, desk.cluster.suppliers.map(name => [name, name]), list.value);

function nodeForm(desk) {
  const owners = select();
  const card = formCard("Add a node", {supplier: ["Supplier", owners], node: ["Node", textField({})]}, "Add it", ({supplier, node}) =>
    change(desk, {do: "add_node", supplier, node}, `${node} is a node of ${supplier}, in all variants.`));
  return {card, show: suppliersInto(desk, owners)};
}

const SIGNS = "ABCDEFGHJKLMNPQRSTUVWXYZabcdefghijkmnopqrstuvwxyz23456789";
// A key of 24 letters and digits. Numbers of a byte with which some of them would come more often are left out.
function randomKey() {
  const bytes = crypto.getRandomValues(new Uint8Array(240)), even = bytes.filter(byte => byte < 256 - 256 % SIGNS.length);
  return Array.from(even.slice(0, 24), byte => SIGNS[byte % SIGNS.length]).join("");
}
const keyField = () => textField({maxlength: 64});
const makeUp = field => button("Make up a key", () => { field.value = randomKey(); });

function supplierForm(desk) {
  const field = keyField();
  const card = formCard("Add a supplier", {supplier: ["Name", textField({})], key: ["Key", field]}, "Add it", ({supplier, key}) =>
    change(desk, {do: "add_supplier", supplier, key}, `${supplier} has joined, with the key ${key}. It is not shown again.`), makeUp(field));
  return {card, show() {}};
}

function keyForm(desk) {
  const owners = select(), field = keyField();
  const card = formCard("Change a supplier's key", {supplier: ["Supplier", owners], key: ["New key", field]}, "Change it", async ({supplier, key}) =>
    await confirmed(`A new key for ${supplier}?`, "The old one is nobody's from then on.", "Change it")
      && change(desk, {do: "set_key", supplier, key}, `${supplier} has the key ${key}. It is not shown again.`), makeUp(field));
  return {card, show: suppliersInto(desk, owners)};
}
