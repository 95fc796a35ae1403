// The card of wishes: what is typed, pasted or dropped there is tried on the plan, and what would come of it is shown. Nothing is sent by it.
import {button, card, longTable, make, note, row, tableRow} from "./dom.js";
import {MOST_ROWS, recordsOf} from "./csv.js";
import {attempt, inTurn, say} from "./messages.js";
import {explained} from "./refusals.js";
import {readProposal} from "./reports.js";
import {grouped, longPlaceText, plural} from "./words.js";
import {fileOfWishes, isOfWishes, lackMail, placementsFile, proposalText, wishesIn} from "./wishes.js";

// The card's content: a text of wishes, what was read in it, and what was proposed in which variant.
const wishesOf = (text, replaces) => ({text, replaces, list: [], fault: "", proposal: null, variant: null});

// Takes a text of wishes, and forgets what was proposed for others.
function takeWishes(desk, text) {
  desk.wishes = wishesOf(text, desk.wishes?.replaces ?? false);
  desk.tell("file", "pending");
}

// Whether a file that was looked at has wishes: then it is taken so.
export function tookWishes(desk, file) {
  const records = file.sheet?.records ?? file.sheets?.[0]?.records ?? recordsOf(new TextDecoder().decode(file.bytes), ["\t", ";", ","].find(one => file.records[0]?.join(",").includes(one)) ?? ",");
  if (!records[0] || !isOfWishes(records[0])) return false;
  takeWishes(desk, records.map(record => record.join("\t")).join("\n"));
  return true;
}

// The placements that are proposed in the variant that is shown, which the plan outlines.
export const proposedIn = ({wishes, variant}) => wishes?.proposal && wishes.variant === variant
  ? wishes.proposal.rows.map(({placement}) => placement).filter(Boolean) : [];

// Asks where the wishes would go. Rows that are no wish are left out, and told.
const propose = (desk, without = new Set()) => inTurn(desk, () => attempt(desk, async () => {
  const {text, replaces} = desk.wishes, read = wishesIn(text, desk), list = read.wishes.filter(({frame}) => !without.has(frame));
  const sent = list.filter(({fault}) => !fault);
  Object.assign(desk.wishes, {list, fault: read.fault || (sent.length > MOST_ROWS ? `At most ${MOST_ROWS} wishes go at once; these are ${grouped(sent.length)}.` : ""), proposal: null, variant: desk.variant});
  if (!desk.wishes.fault && sent.length) {
    const {rows, lacks} = readProposal(await desk.register.proposed(desk.variant, fileOfWishes(sent), replaces));
    sent.forEach((wish, at) => { wish.row = rows.find(({record}) => record === at + 2); });
    desk.wishes.proposal = {rows, lacks};
  }
  desk.tell("file", "pending");
}, "Looking where the wishes fit ..."));

const EXAMPLE = "frame\tnode\tchannels\tcycle time ms\nwheel_speed\tbrake_unit\tA\t10";

export function wishesCard(desk, take) {
  const wishes = desk.wishes ??= wishesOf("", false);
  const area = make("textarea", {id: "wishes-text", rows: 5, spellcheck: "false", autocapitalize: "none", placeholder: EXAMPLE, "aria-label": "Wishes"});
  area.value = wishes.text;
  area.addEventListener("input", () => { wishes.text = area.value; });
  const way = (value, replaces, words) => make("label", {class: "check"}, make("input", {type: "radio", name: "way", value, checked: wishes.replaces === replaces,
    onchange: () => { wishes.replaces = replaces; }}), words);
  return make("form", {class: "card", novalidate: "", onsubmit: event => { event.preventDefault(); propose(desk); }}, make("h2", {}, "Propose where frames go"),
    note("A line for each wish, as copied from a spreadsheet, below the names of its columns: frame, node, channels, and repetition, or gap or cycle time "
      + "with ms, macroticks or cycles. Such a file may be dropped too. Nothing is changed by a proposal."), area,
    make("div", {class: "row", role: "radiogroup", "aria-label": "What the wishes may move"}, way("propose", false, "beside what is there"),
      way("propose-anew", true, "in place of what these frames have")),
    row(make("button", {type: "submit", class: "main", id: "propose"}, "Propose")), wishes.list.length || wishes.fault ? proposalBox(desk, wishes, take) : "");
}

function proposalBox(desk, wishes, take) {
  const {proposal, fault, list, replaces} = wishes, faulty = list.filter(one => one.fault).length;
  if (fault || !proposal) return make("div", {id: "proposed"}, make("p", {class: "fault", role: "alert"}, fault || "No row is a wish that can be asked."), list.length ? wishTable(desk, list) : "");
  const {rows, lacks} = proposal, homeless = rows.filter(({placement}) => !placement), fits = rows.length - homeless.length;
  const again = () => propose(desk, new Set(list.filter(({row}) => row && !row.placement).map(({frame}) => frame)));
  const isOffered = fits && !(replaces && homeless.length);
  return make("div", {id: "proposed"}, make("p", {}, make("strong", {}, proposalText(proposal, desk.plan, desk.me, replaces)),
    faulty ? ` ${plural(faulty, "row")} of the text ${faulty === 1 ? "was" : "were"} not asked.` : ""),
    row(isOffered ? button(`Try ${fits === 1 ? "this row" : `these ${grouped(fits)} rows`}`, () => take(placementsFile(rows), replaces), {class: "main", id: "take-proposal"}) : "",
      homeless.length && replaces ? button("Propose without the frames that have no room", again) : "", button("Forget it", () => takeWishes(desk, ""))),
    lacks.length ? lackBox(desk, lacks) : "", wishTable(desk, list));
}

function lackBox(desk, lacks) {
  const area = make("textarea", {id: "lack", rows: 5, readonly: "", "aria-label": "A text to mail to the integrator"});
  area.value = lackMail(lacks, desk);
  const copy = async () => {
    area.select();
    try { await navigator.clipboard.writeText(area.value); say("good", "The text is copied."); } catch { say("warn", "Press Ctrl+C: the text is chosen."); }
  };
  return [area, row(button("Copy it for a mail", copy))];
}

const wishTable = (desk, list) => longTable(["frame", "node", "channels", "asked", ["repetition", "num"], "where"], list, wish => tableRow([
  wish.frame, wish.node, wish.channels, wish.asked, [wish.repetition ?? "", "num"], whereCell(desk, wish)], wish.fault || !wish.row?.placement ? "bad" : ""));

function whereCell(desk, {fault, row: found}) {
  if (fault) return fault;
  if (!found) return "";
  if (!found.placement) return found.no === 32 ? "no room" : explained({no: found.no});
  const {slot, channels, base} = found.placement;
  return make("span", {}, longPlaceText(found.placement), " ", button("Show", () => desk.reveal(slot, channels[0], base), {"aria-label": `Show slot ${slot} ${channels}`}));
}
