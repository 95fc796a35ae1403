// Wishes: frames with the channels and the repetition that each wants, as they are typed, pasted or dropped; and what is proposed for them.
import {fileOf, recordsOf} from "./csv.js";
import {divisors} from "./cycles.js";
import {grouped, placeText, plural, short} from "./words.js";

export const WISHES = ["frame", "node", "channels", "repetition"];
const NAMES = {frame: /^frame(s|_name| name)?$/, node: /^(node|ecu|sender)s?$/, channels: /^channels?$/, repetition: /^(cycle )?repetition$/, gap: /^(greatest |largest |max )?gap|^(cycle|period|send)[ _]?time|^period|^cycle[ _]?time/};
const UNITS = [["ms", /\bms\b|millisecond/], ["cycles", /\bcycles?\b(?! ?time)/], ["macroticks", /\bmacroticks?\b|\bmt\b/]];
const unitIn = text => UNITS.find(([, form]) => form.test(text))?.[0] ?? null;

// Which column is which, by the names above them.
function columnsOf(header) {
  const heads = header.map(head => head.trim().toLowerCase().replace(/[_()[\]]/g, " ").replace(/ +/g, " ").trim());
  const found = Object.fromEntries(Object.entries(NAMES).map(([name, form]) => [name, heads.findIndex(head => form.test(head))]));
  return {...found, unit: found.gap < 0 ? null : unitIn(heads[found.gap])};
}

// Whether a file's header is one of wishes, and of nothing else.
export function isOfWishes(header) {
  const {frame, channels, repetition, gap} = columnsOf(header), heads = header.map(head => head.trim().toLowerCase());
  return frame >= 0 && channels >= 0 && (repetition >= 0 || gap >= 0) && !heads.includes("base") && !heads.includes("slot");
}

// A longest gap in macroticks, or why it is not known.
function macroticksOf(text, unit, {cluster, times}) {
  const number = Number(text.replace(/[^\d.,]/g, "").replace(",", ".")), own = unitIn(text.toLowerCase()) ?? unit;
  if (!(number > 0)) return {fault: `"${short(text)}" is no gap.`};
  if (own === "ms" && !times.microseconds) return {fault: "Choose milliseconds above, and say how long a macrotick is."};
  if (own === "cycles") return {gap: number * cluster.macroticks_per_cycle};
  return own === "ms" ? {gap: number * 1000 / times.microseconds} : own === "macroticks" ? {gap: number}
    : {fault: `${number} has no unit: ms, macroticks or cycles.`};
}

// The greatest repetition that keeps a gap; below a cycle how many slots are wanted.
export function repetitionFor(gap, cluster) {
  const fit = divisors(cluster.cycles).findLast(number => number * cluster.macroticks_per_cycle <= gap + 1e-6);
  if (fit) return {repetition: fit};
  const slots = Math.ceil(cluster.macroticks_per_cycle / gap - 1e-9);
  return {fault: `It is shorter than a cycle, so it needs ${slots} slots in each: ask for ${slots} placements of repetition 1.`};
}

function repetitionOf(record, columns, desk) {
  const own = columns.repetition < 0 ? "" : (record[columns.repetition] ?? "").trim();
  if (own) return /^\d{1,2}$/.test(own) ? {repetition: Number(own)} : {fault: `"${short(own)}" is no repetition.`};
  const {gap, fault} = macroticksOf((record[columns.gap] ?? "").trim(), columns.unit, desk);
  return fault ? {fault} : repetitionFor(gap, desk.cluster);
}

// The wishes of a text, as of a spreadsheet's columns: of each its fields, what was asked in place of a repetition, and what is wrong.
export function wishesIn(text, desk) {
  const comma = ["\t", ";", ","].find(one => text.split("\n", 1)[0].includes(one)) ?? ",";
  const [header, ...records] = recordsOf(text, comma);
  if (!header || !isOfWishes(header)) return {wishes: [], fault: `The first line names the columns: ${WISHES.join(", ")}; in place of repetition also gap or cycle time, with ms, macroticks or cycles.`};
  const columns = columnsOf(header), field = (record, name) => (record[columns[name]] ?? "").trim();
  const wishes = records.filter(record => record.some(one => one.trim())).map(record => {
    const frame = field(record, "frame"), channels = field(record, "channels").toUpperCase().replace(/[^AB]/g, "");
    const node = columns.node < 0 ? "" : field(record, "node"), {repetition = null, fault = ""} = repetitionOf(record, columns, desk);
    return {frame, node: node || (desk.plan.frameNamed(desk.me, frame)?.node ?? ""), channels, repetition, asked: columns.gap < 0 ? "" : field(record, "gap"), fault};
  });
  return {wishes, fault: wishes.length ? "" : "There is no wish below the first line."};
}

export const fileOfWishes = wishes => fileOf([WISHES, ...wishes.map(({frame, node, channels, repetition}) => [frame, node, channels, String(repetition)])]);

// The file that a proposal makes: its placements.
export const placementsFile = rows => fileOf([["frame", "node", "slot", "channels", "base", "repetition"],
  ...rows.filter(({placement}) => placement).map(({placement: {frame, node, slot, channels, base, repetition}}) => [frame, node, slot, channels, base, repetition].map(String))]);

// What came of the wishes, in a sentence: `stay` are those whose placement is there already.
export function proposalText({rows, lacks}, plan, me, replaces) {
  const fits = rows.filter(({placement}) => placement), places = new Set(plan.frames.filter(({supplier}) => supplier === me).flatMap(frame => frame.placements.map(one => frame.name + placeText(one))));
  const stay = replaces ? fits.filter(({placement}) => places.has(placement.frame + placeText(placement))).length : 0, stays = replaces ? ` ${grouped(stay)} ${stay === 1 ? "stays where it is" : "stay where they are"}.` : "";
  if (fits.length === rows.length) return `${rows.length > 1 ? `All ${grouped(rows.length)} fit` : "It fits"}.${stays}`;
  return [`${grouped(fits.length)} of ${grouped(rows.length)} fit.`, ...lacks.map(lackText)].join(" ") + stays;
}

const lackText = ({node, channels, lack}) => `Node ${node} needs ${plural(lack, "slot")} more on ${channels === "AB" ? "A and B" : channels}.`;

// A mail to the integrator that asks for the slots that are lacking.
export const lackMail = (lacks, {variant, me}) => [`Dear integrator,`, "", `for ${variant} the wishes of ${me} do not all find room. Please grant us:`,
  ...lacks.map(({node, channels, lack}) => `- ${plural(lack, "slot")}, empty in all cycles, on ${channels === "AB" ? "A and B" : channels}, for node ${node}`), "", "Thank you."].join("\n");
