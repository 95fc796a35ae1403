// What can be said of a file before the register sees it: how spreadsheets write files that it does not read, and what is sure to mend that.
import {excessIn, fileOf, HEADERS, recordsOf} from "./csv.js";
import {plural, short} from "./words.js";
import {canUnpack, isOldWorkbook, isWorkbook, NoWorkbook, sheetsOf} from "./workbook.js";

const tidied = record => record.map(field => field.trim());
const headerOf = record => tidied(record ?? []).map(field => field.toLowerCase());
// The kind of a file whose header has these fields, be there empty ones behind them.
const kindOf = record => HEADERS[headerOf(record).join(",").replace(/,+$/, "")];

// A file: its name and bytes, its records and what they are; what is wrong with it and how it is mended; what is only to be known.
export async function looked(name, bytes) {
  const file = {name, bytes, records: [], kind: null, fault: "", mend: null, notes: [], sheets: null};
  if (isWorkbook(bytes)) await lookIntoWorkbook(file);
  else if (isOldWorkbook(bytes)) file.fault = "This is a workbook of an older form (.xls)." + BY_HAND;
  else lookIntoText(file);
  return file;
}

// The file that a mend makes, and what was changed.
export function mended({name, mend}) {
  const bytes = fileOf(mend.records);
  return {name, bytes, records: recordsOf(new TextDecoder().decode(bytes)), kind: kindOf(mend.records[0]), fault: "", mend: null,
    notes: ["Changed here, not on your disk."], sheets: null};
}

const WORKBOOK = "This is a workbook, not a CSV file.";
const BY_HAND = " Save its sheet as CSV UTF-8 (comma delimited), or in LibreOffice as Text CSV.";

async function lookIntoWorkbook(file) {
  file.fault = WORKBOOK;
  if (!canUnpack()) { file.fault += " This browser cannot read it." + BY_HAND; return; }
  try { file.sheets = await sheetsOf(file.bytes); } catch (fault) {
    if (!(fault instanceof NoWorkbook)) throw fault;
    file.fault += ` It cannot be read: ${fault.message}${BY_HAND}`;
    return;
  }
  const known = file.sheets.filter(({records}) => picked(withoutHint(records.filter(isFilled))));
  if (known.length) takeSheet(file, known[0]);
  else file.fault += ` No sheet of it begins with a header that the register knows. ${unknown(file.sheets[0].records.filter(isFilled))}`;
}

// Takes a sheet of a workbook as the file's rows.
export function takeSheet(file, sheet) {
  file.sheet = sheet;
  const own = withoutHint(sheet.records.filter(record => record.length)), taken = picked(own) ?? own, {records, changes} = cleaned(taken);
  if (taken !== own) changes.unshift(BY_NAMES);
  file.fault = `${WORKBOOK} Its sheet ${short(sheet.name)} has rows that the register reads.`
    + (changes.length ? ` ${changes.join(" ")}` : "");
  file.mend = kindOf(records[0]) ? {text: `Take the sheet ${short(sheet.name)}`, records} : null;
}

function lookIntoText(file) {
  const coding = encodingOf(file.bytes), text = decoded(file, coding);
  file.records = recordsOf(text);
  const excess = excessIn(file.records);
  if (excess) { Object.assign(file, {records: [], fault: `This is no plan. ${excess}`}); return; }
  const comma = [",", ";", "\t"].find(one => picked(withoutHint(recordsOf(text, one)))) ?? "";
  if (!comma) {
    file.fault = unknown(file.records) + (coding ? " " + UTF_16 : "");
    return;
  }
  const own = withoutHint(recordsOf(text, comma)), taken = picked(own), {records, changes} = cleaned(taken);
  if (taken !== own) changes.unshift(BY_NAMES);
  const faults = [coding && UTF_16, SEPARATED[comma], isNumbered(recordsOf(text, comma)[0]) && NUMBERED, ...changes].filter(Boolean);
  file.kind = HEADERS[file.records[0]?.join(",")] ?? null;
  if (!faults.length && file.kind) return;
  file.fault = faults.join(" ");
  file.mend = {text: comma === ";" ? "Turn semicolons into commas" : comma === "\t" ? "Turn tabs into commas" : "Mend it", records};
}

function unknown([header]) {
  if (!header) return "The file is empty.";
  const isIntegrators = headerOf(header).at(-1) === "supplier" && kindOf(header.slice(0, -1));
  return isIntegrators ? "This is a file of the integrator's, which has the supplier in each row. A supplier's own file is one that it took itself."
    : `The first line is no header that the register knows: ${short(header.join(","))}`;
}

// The records with the columns of a header alone, in its order, where the first line names each of them once; else nothing. Of `frame` and `node`
// that is not sure where more columns stand: they are in another header too, be there a slip in it.
function picked(records) {
  if (kindOf(records[0])) return records;
  const names = headerOf(records[0]), isOnce = name => names.filter(other => other === name).length === 1;
  const found = Object.keys(HEADERS).map(header => header.split(",")).filter(header => header.every(isOnce) && (header.length > 2 || !names[2]));
  if (found.length !== 1 || names.includes("supplier") || records.some(record => record.length > names.length)) return null;
  return records.map(record => found[0].map(name => record[names.indexOf(name)] ?? ""));
}

const BY_NAMES = "Columns stand in another order, or beside others. Those of the header are taken.";
const UTF_16 = "This is text in UTF-16, which spreadsheets call Unicode text. The register reads UTF-8.";
const NUMBERED = "A line of numbered names stands above the header, as Excel writes it where a file was loaded without its data types.";
const SEPARATED = {
  ";": "The fields are separated by semicolons, as spreadsheets do where a comma stands in decimal numbers. The register reads commas.",
  "\t": "The fields are separated by tabs. The register reads commas.",
};

function encodingOf([first, second]) {
  if (first === 0xff && second === 0xfe) return "utf-16le";
  return first === 0xfe && second === 0xff ? "utf-16be" : "";
}

function decoded(file, coding) {
  const [first, second, third] = file.bytes;
  if (first === 0xef && second === 0xbb && third === 0xbf) {
    file.notes.push("The file begins with a byte order mark, as spreadsheets write it. The register takes it off.");
  }
  if (coding) return new TextDecoder(coding).decode(file.bytes);
  try { return new TextDecoder("utf-8", {fatal: true}).decode(file.bytes); } catch {
    file.notes.push("The file is not UTF-8 throughout. Rows with such bytes are refused.");
    return new TextDecoder().decode(file.bytes);
  }
}

// Without a first line as `sep=;` or `Column1,Column2`, which is for spreadsheets alone.
const isHint = record => /^sep=/i.test(record?.[0] ?? "") && record.join("").length <= 5;
const withoutHint = records => isHint(records[0]) || isNumbered(records[0]) ? records.slice(1) : records;

// Whether these are names that differ in their numbers alone, from 1 on.
function isNumbered(record) {
  const word = /^(\D+)1$/.exec(record?.[0] ?? "")?.[1];
  return word !== undefined && record.length > 1 && record.every((field, at) => field === word + (at + 1));
}

const isFilled = record => record.some(field => field.trim() !== "");

// The records as the register wants them, and what had to be changed.
function cleaned(records) {
  const filled = records.filter(isFilled), changes = [], blank = records.length - filled.length;
  const wide = HEADERS_WIDE[kindOf(filled[0])] ?? 0;
  if (filled.length && wide && headerOf(filled[0]).slice(0, wide).join(",") !== filled[0].slice(0, wide).join(",")) {
    changes.push("The header has the right names, but not letter by letter: no capitals, no spaces.");
  }
  if (blank) changes.push(`${plural(blank, "row has", "rows have")} nothing in ${blank === 1 ? "it" : "them"}.`);
  const isLong = record => record.length > wide && record.slice(wide).every(field => field.trim() === "");
  if (wide && filled.some(isLong)) changes.push("Empty columns stand behind the others.");
  if (filled.slice(1).some(record => record.some(field => field !== field.trim()))) changes.push("Spaces stand around fields.");
  const short = wide ? filled.map(record => isLong(record) ? record.slice(0, wide) : record) : filled;
  return {records: short.map((record, at) => at ? tidied(record) : headerOf(record)), changes};
}

const HEADERS_WIDE = Object.fromEntries(Object.entries(HEADERS).map(([header, kind]) => [kind, header.split(",").length]));
