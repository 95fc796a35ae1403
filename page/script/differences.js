// The view of differences: what a variant has that another one has not, and the other way round.
import {button, byId, longTable, make, options, refill, row, save, tableRow} from "./dom.js";
import {attempt, say} from "./messages.js";
import {compare} from "./reading.js";
import {bitsText, longPlaceText} from "./words.js";

const KINDS = ["grant", "frame", "placement", "signal", "gap"];

export function differences(desk) {
  desk.on("plan register difference view look", () => { if (desk.hasView("diff")) showDifference(desk); });
  desk.on("left", () => byId("view-diff").replaceChildren());
}

function showDifference(desk) {
  const {difference} = desk;
  refill(byId("view-diff"), question(desk), difference ? [kindBar(desk, difference), rowTable(desk, difference)] : make("p", {class: "note"},
    desk.variants.length > 1 ? "The rows that differ are listed here, and marked in the plan." : "There is no other variant."));
}

function question(desk) {
  const from = make("select", {id: "from", "aria-label": "Compared with"}), others = desk.variants.filter(({name}) => name !== desk.variant);
  options(from, others.map(({name}) => [name, name]), desk.difference?.from ?? desk.entry()?.parent);
  const go = () => attempt(desk, async () => { await compare(desk, from.value); desk.tell("difference"); }, `Comparing with ${from.value} ...`);
  return row(make("h2", {}, `What is new in ${desk.variant} since`), from,
    button("Compare", go, {class: "main", id: "compare", disabled: !others.length}));
}

function kindBar(desk, difference) {
  const show = kind => { difference.kind = kind; desk.tell("difference"); };
  const count = (kind, isNew) => difference.rows.filter(row => row.kind === kind && row.isNew === isNew).length;
  const kinds = KINDS.filter(kind => count(kind, true) + count(kind, false)).map(kind =>
    button(`${kind}s +${count(kind, true)} \u2212${count(kind, false)}`, () => show(kind), {"aria-pressed": String(difference.kind === kind)}));
  const all = button("all", () => show(null), {"aria-pressed": String(!difference.kind)});
  return row(difference.rows.length ? all : make("strong", {}, "Nothing differs."), kinds,
    button("Mark it in the plan", () => { desk.look.marks = true; desk.show("plan"); desk.tell("look"); }),
    button("Take it as a picture", () => attempt(desk, async () => {
      const {variant} = desk, name = `${variant}_since_${difference.from}.html`;
      save(name, await desk.register.read(desk.path(`since/${difference.from}/picture`)), "text/html");
      say("good", `${name} is the plan with what is new in it, as a page to print or to send.`);
    }, "Taking the picture ...")),
    button("Forget it", () => { desk.difference = null; desk.tell("difference"); }));
}

function rowTable(desk, {rows, kind, from}) {
  const shown = kind ? rows.filter(row => row.kind === kind) : rows;
  if (!shown.length) return "";
  const ofSupplier = text => desk.isIntegrator ? text : null;
  const show = ({slot, channels, base}) => slot ? button("Show", () => desk.reveal(slot, channels[0], base ?? 0),
    {"aria-label": `Show slot ${slot} ${channels} in the plan`}) : "";
  return longTable(["", "what", "frame or node", ofSupplier("supplier"), "row", ""], shown, row => tableRow([
    row.isNew ? `+ in ${desk.variant}` : `\u2212 in ${from}`, row.kind, row.frame ?? row.node, ofSupplier(row.supplier),
    rowText(desk, row), show(row)], row.isNew ? "plus" : "minus"));
}

function rowText(desk, row) {
  if (row.kind === "grant") return `slot ${row.slot} ${row.channels} to ${row.node}`;
  if (row.kind === "frame") return `sent by ${row.node}`;
  if (row.kind === "placement") return longPlaceText(row);
  if (row.kind === "signal") return bitsText(row);
  return row.gap === Infinity ? "never sent" : desk.times.text(row.gap);
}
