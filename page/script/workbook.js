// Reads a workbook of Excel (.xlsx) or LibreOffice (.ods): the texts of its sheets' cells, as records.
import {grouped} from "./words.js";

export class NoWorkbook extends Error {}

export const isWorkbook = ([p, k, three, four]) => p === 0x50 && k === 0x4b && three === 3 && four === 4;
export const isOldWorkbook = ([first, second]) => first === 0xd0 && second === 0xcf;
export const canUnpack = () => {
  try { return Boolean(new DecompressionStream("deflate-raw")); } catch { return false; }
};

// More than the largest plan has in one table.
const MOST_LETTERS = 32_000_000;
const MOST_LINES = 20_000;
const MOST_COLUMNS = 256;
const MOST_SHEETS = 64;

// Its sheets in their order: name and records.
export async function sheetsOf(bytes) {
  const entries = entriesOf(bytes), part = async path => entries.has(path) ? textOf(bytes, entries.get(path)) : "";
  const sheets = entries.has("content.xml") ? openSheets(await part("content.xml")) : await officeSheets(part);
  if (!sheets.length) throw new NoWorkbook("It has no sheet that can be read.");
  return sheets;
}

async function officeSheets(part) {
  const targets = new Map(elements(await part("xl/_rels/workbook.xml.rels"), "Relationship").map(({fields}) => [fields.Id, fields.Target]));
  const strings = elements(await part("xl/sharedStrings.xml"), "si").map(({inner}) => textIn(inner)), sheets = [];
  const named = elements(await part("xl/workbook.xml"), "sheet");
  if (named.length > MOST_SHEETS) throw new NoWorkbook(`It has ${named.length} sheets. Of more than ${MOST_SHEETS} none is read.`);
  for (const {fields} of named) {
    const target = targets.get(fields["r:id"]) ?? "";
    const records = recordsIn(await part(target.startsWith("/") ? target.slice(1) : "xl/" + target), strings);
    sheets.push({name: fields.name ?? "", records});
  }
  return sheets;
}

// As OpenDocument has them: a cell, or a row, that stands several times in turn is written once, with their number.
function openSheets(xml) {
  const record = row => unrolled(elements(row.inner, "(?:covered-)?table-cell"), "columns", MOST_COLUMNS, openText);
  return elements(xml, "table").slice(0, MOST_SHEETS).map(({fields, inner}) =>
    ({name: fields["table:name"] ?? "", records: unrolled(elements(inner, "table-row"), "rows", MOST_LINES, record)}));
}

// What is read of elements, each as often as it stands there, up to the last that has something in it.
function unrolled(found, what, most, read) {
  const runs = found.map(one => [read(one), (one.fields[`table:number-${what}-repeated`] ?? 1) >>> 0]);
  const kept = runs.slice(0, runs.findLastIndex(([value]) => value.length) + 1), count = kept.reduce((sum, [, times]) => sum + times, 0);
  if (count > most) throw new NoWorkbook(tooMany(what, most));
  return kept.flatMap(([value, times]) => Array(times).fill(value));
}

const tooMany = (what, most) => `A sheet of it has more than ${grouped(most)} ${what}, which no plan has.`;

function openText({fields, inner}) {
  if (fields["office:value-type"] === "float") return numberText(fields["office:value"] ?? "");
  const lines = elements(cleared(inner, "annotation"), "p");
  return lines.map(line => unescaped(line.inner.replace(/<text:s\b[^<>]*>/g, " ").replace(/<[^<>]*>/g, ""))).join("\n");
}

// The places of a zip's entries, by their paths, as its directory at the end has them.
function entriesOf(bytes) {
  const view = new DataView(bytes.buffer, bytes.byteOffset, bytes.length), entries = new Map();
  let end = bytes.length - 22;
  while (end >= 0 && view.getUint32(end, true) !== 0x06054b50) end -= 1;
  if (end < 0) throw new NoWorkbook("It ends too early.");
  for (let at = view.getUint32(end + 16, true), left = view.getUint16(end + 10, true); left > 0; left -= 1) {
    if (at + 46 > bytes.length || view.getUint32(at, true) !== 0x02014b50) throw new NoWorkbook("Its directory is damaged.");
    const [name, more, remark] = [28, 30, 32].map(field => view.getUint16(at + field, true));
    entries.set(new TextDecoder().decode(bytes.subarray(at + 46, at + 46 + name)),
      {method: view.getUint16(at + 10, true), length: view.getUint32(at + 20, true), begin: view.getUint32(at + 42, true)});
    at += 46 + name + more + remark;
  }
  return entries;
}

async function textOf(bytes, {method, length, begin}) {
  if (begin + 30 > bytes.length) throw new NoWorkbook("It is damaged.");
  const view = new DataView(bytes.buffer, bytes.byteOffset + begin, 30), from = begin + 30 + view.getUint16(26, true) + view.getUint16(28, true);
  const packed = bytes.subarray(from, from + length);
  if (method === 0) return new TextDecoder().decode(packed);
  if (method !== 8) throw new NoWorkbook("It is packed in another way.");
  return unpacked(packed);
}

async function unpacked(packed) {
  const reader = new Blob([packed]).stream().pipeThrough(new DecompressionStream("deflate-raw")).getReader(), decoder = new TextDecoder();
  let text = "";
  try {
    for (;;) {
      const {done, value} = await reader.read();
      if (done) return text + decoder.decode();
      text += decoder.decode(value, {stream: true});
      if (text.length > MOST_LETTERS) throw new NoWorkbook("It is too large for a plan.");
    }
  } catch (fault) {
    throw fault instanceof NoWorkbook ? fault : new NoWorkbook("It is damaged.");
  }
}

const ENTITIES = {lt: "<", gt: ">", amp: "&", quot: '"', apos: "'"};
const unescaped = text => text.replace(/&(?:#(\d{1,7})|#x([0-9a-fA-F]{1,6})|(\w+));/g, (whole, number, hex, name) =>
  name ? ENTITIES[name] ?? whole : String.fromCodePoint(Math.min(0x10ffff, number ? Number(number) : parseInt(hex, 16))));

// The elements of a name, which hold none of the same name: their fields, and what is between their tags.
function elements(xml, name) {
  return stretches(xml, name).map(({head, inner}) => {
    const fields = {};
    for (const [, key, value] of head.matchAll(/(?<![\w:-])([\w:-]+)="([^"]*)"/g)) fields[key] = unescaped(value);
    return {fields, inner};
  });
}

// Where they begin and end. Each letter is looked at a few times at most, however the text is damaged.
function stretches(xml, name) {
  const opening = new RegExp(`<(?:\\w+:)?${name}(\\s[^<>]*)?>`, "g"), closing = new RegExp(`</(?:\\w+:)?${name}>`, "g"), found = [];
  for (let open = opening.exec(xml); open; open = opening.exec(xml)) {
    const head = open[1] ?? "", from = opening.lastIndex, isEmpty = open[0].endsWith("/>");
    closing.lastIndex = from;
    const close = isEmpty ? null : closing.exec(xml);
    if (!isEmpty && !close) throw new NoWorkbook("It is damaged: an element of it has no end.");
    found.push({head, inner: isEmpty ? "" : xml.slice(from, close.index), begin: open.index, end: isEmpty ? from : closing.lastIndex});
    opening.lastIndex = found.at(-1).end;
  }
  return found;
}

// A text without the elements of a name.
function cleared(xml, name) {
  let at = 0, left = "";
  for (const {begin, end} of stretches(xml, name)) { left += xml.slice(at, begin); at = end; }
  return left + xml.slice(at);
}

// What is said in the t elements; those of a reading aid are left out.
const textIn = inner => elements(cleared(inner, "rPh"), "t").map(text => unescaped(text.inner)).join("");

function recordsIn(xml, strings) {
  const rows = elements(xml, "row"), filled = rows.slice(0, rows.findLastIndex(({inner}) => inner) + 1);
  if (filled.length > MOST_LINES) throw new NoWorkbook(tooMany("rows", MOST_LINES));
  return filled.map(row => {
    const record = [];
    for (const cell of elements(row.inner, "c")) {
      const at = columnOf(cell.fields.r) ?? record.length, text = cellText(cell, strings);
      if (at >= MOST_COLUMNS && text === "") continue;
      if (at >= MOST_COLUMNS) throw new NoWorkbook(tooMany("columns", MOST_COLUMNS));
      while (record.length < at) record.push("");
      record[at] = text;
    }
    return record;
  });
}

// The number of a column, of a cell's name as `AB12`.
function columnOf(name) {
  const letters = /^([A-Z]{1,3})\d+$/.exec(name ?? "")?.[1];
  return letters && [...letters].reduce((sum, letter) => sum * 26 + letter.charCodeAt(0) - 64, 0) - 1;
}

function cellText({fields, inner}, strings) {
  if (fields.t === "inlineStr") return textIn(inner);
  const value = unescaped(elements(inner, "v")[0]?.inner ?? "");
  if (fields.t === "s") return strings[Number(value)] ?? "";
  return fields.t ? value : numberText(value);
}

const numberText = value => value !== "" && Number.isFinite(Number(value)) ? String(Number(value)) : value;
