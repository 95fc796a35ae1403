// The forms of the register's reports. A line that has not its report's form is refused.
import {Strange} from "./faults.js";
import {nameOfRefusal} from "./refusals.js";
import {short} from "./words.js";

const NAME = "[A-Za-z][A-Za-z0-9_]{0,31}";
const form = text => new RegExp("^" + text.replaceAll("NAME", `(${NAME})`) + "$");
const OWNER = "(?: NAME)?";

const FORMS = {
  cluster: form("(\\w+) (AB|A|B|\\d{1,10}|NAME)"),
  variant: form(`NAME (-|${NAME}) (\\d{1,2}) (open|released)`),
  node: form("NAME" + OWNER),
  wish: form("(\\d{4,}) (\\d\\d) (?:NAME,NAME,(\\d{1,4}),(AB|A|B),(\\d{1,2}),(\\d{1,2})|(\\w{1,20}))"),
  lack: form("LACK NAME (AB|A|B) (\\d{4})"),
  fate: form("(\\d{4,}) (\\d\\d) (\\w{1,20})(?: (\\d\\d) ([AB]) NAME| (\\d{4}) NAME)?"),
};

// The rows of a variant by their kinds: form, and what its fields are.
const ROWS = new Map(Object.entries({
  GRANT: [form("GRANT (\\d{4}) ([AB]) NAME" + OWNER), (slot, channels, node, supplier) =>
    ({kind: "grant", slot: Number(slot), channels, node, supplier})],
  FRAME: [form("FRAME NAME NAME" + OWNER), (frame, node, supplier) => ({kind: "frame", frame, node, supplier})],
  AT: [form("AT NAME (\\d{4}) (AB|A|B) (\\d\\d) (\\d\\d)" + OWNER), (frame, slot, channels, base, repetition, supplier) =>
    ({kind: "placement", frame, slot: Number(slot), channels, base: Number(base), repetition: Number(repetition), supplier})],
  SIGNAL: [form("SIGNAL NAME (\\d{4}) (\\d\\d) (little|big) NAME" + OWNER), (frame, start, length, order, name, supplier) =>
    ({kind: "signal", frame, start: Number(start), length: Number(length), order, name, supplier})],
  GAP: [form("GAP +(never|\\d{1,7}) NAME" + OWNER), (gap, frame, supplier) =>
    ({kind: "gap", frame, gap: gap === "never" ? Infinity : Number(gap), supplier})],
}));

const EXPORTS = {
  frames: ["frame,node", form("NAME,NAME(?:,NAME)?")],
  placements: ["frame,node,slot,channels,base,repetition", form("NAME,NAME,\\d{1,4},(?:AB|A|B),\\d{1,2},\\d{1,2}(?:,NAME)?")],
  signals: ["frame,signal,start,length,order", form("NAME,NAME,\\d{1,4},\\d{1,2},(?:little|big)(?:,NAME)?")],
};

const LEAST_AND_MOST = {
  static_slots: [2, 1023], slot_macroticks: [1, 16000], dynamic_macroticks: [0, 16000], symbol_macroticks: [0, 16000],
  idle_macroticks: [1, 16000], macroticks_per_cycle: [1, 16000], payload_words: [0, 127], cycles: [8, 64],
};

// A number as a request or a file has it.
export const isDigits = text => /^\d{1,10}$/.test(text);
export const isName = text => new RegExp(`^${NAME}$`).test(text);

function linesOf(text) {
  if (text === "") return [];
  return (text.endsWith("\n") ? text.slice(0, -1) : text).split("\n");
}

function fieldsOf(shape, line) {
  const found = shape.exec(line);
  if (!found) throw new Strange(`The server sent a line that no report has: ${short(line)}`);
  return found.slice(1);
}

const rowsOf = (text, shape) => linesOf(text).map(line => fieldsOf(shape, line));

export function readCluster(text) {
  const cluster = {suppliers: []};
  for (const [key, value] of rowsOf(text, FORMS.cluster)) {
    if (key === "supplier") cluster.suppliers.push(value);
    else if (key === "channels" || Object.hasOwn(LEAST_AND_MOST, key)) cluster[key] = key === "channels" ? value : Number(value);
    else throw new Strange(`The server sent a figure that no cluster has: ${short(key)}`);
  }
  for (const [key, [least, most]] of Object.entries(LEAST_AND_MOST)) {
    if (!(cluster[key] >= least && cluster[key] <= most)) throw new Strange(`The cluster's ${key} is out of its range.`);
  }
  if (!/^(AB|A|B)$/.test(cluster.channels) || cluster.suppliers.some(name => !isName(name))) throw new Strange("The cluster has not its form.");
  return cluster;
}

export const readVariants = text => rowsOf(text, FORMS.variant).map(([name, parent, depth, how]) =>
  ({name, parent: parent === "-" ? null : parent, depth: Number(depth), isReleased: how === "released"}));

// Whose a line of a report is: the integrator's name the supplier, and a supplier's, `me`, do not.
function ownerOf(supplier, me) {
  if ((supplier === undefined) === (me === null)) throw new Strange("The server sent a line for somebody else.");
  return supplier ?? me;
}

export const readNodes = (text, me) => rowsOf(text, FORMS.node).map(([node, supplier]) => ({node, supplier: ownerOf(supplier, me)}));

// The fates of a file's rows: for each its record's number and 0, or the refusal.
export function readFates(answer) {
  if (!Array.isArray(answer.lines)) throw new Strange("The answer to a try has no lines.");
  return answer.lines.map(line => {
    const [record, number, word, cycle, channel, frame, bit, signal] = fieldsOf(FORMS.fate, String(line));
    const fate = {record: Number(record), no: Number(number), refused: word, cycle: Number(cycle), channel, frame, bit: Number(bit), signal};
    const name = fate.no === 0 ? "done" : nameOfRefusal(fate.no);
    if (word !== name || fate.no === 29 || (fate.no === 25) !== (frame !== undefined) || (fate.no === 27) !== (signal !== undefined)) {
      throw new Strange(`The server sent a fate that no row has: ${short(line)}`);
    }
    return fate;
  });
}

// A proposal: of each wish its record's number, and its placement or the refusal; and what is lacking, by nodes and channels.
export function readProposal(answer) {
  if (!Array.isArray(answer.lines)) throw new Strange("The answer to a proposal has no lines.");
  const lines = answer.lines.map(String), isLack = line => line.startsWith("LACK ");
  const lacks = lines.filter(isLack).map(line => fieldsOf(FORMS.lack, line)).map(([node, channels, lack]) => ({node, channels, lack: Number(lack)}));
  const rows = lines.filter(line => !isLack(line)).map(line => {
    const [record, number, frame, node, slot, channels, base, repetition, word] = fieldsOf(FORMS.wish, line), no = Number(number);
    if ((frame !== undefined) !== (no === 0) || (no !== 0 && nameOfRefusal(no) !== word)) throw new Strange(`The server sent a line that no proposal has: ${short(line)}`);
    return {record: Number(record), no, placement: no ? null : {frame, node, slot: Number(slot), channels, base: Number(base), repetition: Number(repetition)}};
  });
  return {rows, lacks};
}

function rowOf(line, me) {
  const [shape, fields] = ROWS.get(line.slice(0, line.indexOf(" "))) ?? ROWS.get("GAP"), row = fields(...fieldsOf(shape, line));
  row.supplier = ownerOf(row.supplier, me);
  return row;
}

// The rows of a variant, all at one moment.
export const readRows = (text, me) => linesOf(text).map(line => rowOf(line, me));

export const readDifference = (text, me) => linesOf(text).map(line => {
  if (!/^[-+] /.test(line)) throw new Strange(`The server sent a line that no difference has: ${short(line)}`);
  return {...rowOf(line.slice(2), me), isNew: line[0] === "+"};
});

// A part of an export: its header and its records as lines.
export function readExport(kind, text) {
  const [header, shape] = EXPORTS[kind], [first, ...records] = linesOf(text);
  if (first !== header && first !== header + ",supplier") throw new Strange(`The server sent a header that no export has: ${short(first)}`);
  for (const record of records) fieldsOf(shape, record);
  return {header: first, records};
}
