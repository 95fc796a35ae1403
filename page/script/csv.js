// Files of rows: their records, as the register reads them, and records as a file.
import {grouped} from "./words.js";

// The three files that the register knows, by their headers.
export const HEADERS = {
  "frame,node": "frames",
  "frame,node,slot,channels,base,repetition": "placements",
  "frame,signal,start,length,order": "signals",
};

// Records end with LF, CR or CRLF, and empty lines do not count. A quote begins a quoted field only where a field begins.
export function recordsOf(text, comma = ",") {
  const records = [];
  let record = null, field = "", isQuoted = false, isFresh = true;
  const endField = () => { record.push(field); field = ""; isFresh = true; };
  const endRecord = () => { if (record) { endField(); records.push(record); } record = null; };
  for (let at = 0; at < text.length; at += 1) {
    const letter = text[at];
    if (isQuoted) {
      if (letter !== '"') field += letter;
      else if (text[at + 1] === '"') { field += letter; at += 1; }
      else isQuoted = false;
    } else if (letter === "\n" || letter === "\r") endRecord();
    else {
      record ??= [];
      if (letter === comma) endField();
      else if (letter === '"' && isFresh) { isQuoted = true; isFresh = false; }
      else { field += letter; isFresh = false; }
    }
  }
  endRecord();
  return records;
}

const quoted = field => /[",\r\n]/.test(field) ? `"${field.replaceAll('"', '""')}"` : field;
const lineOf = record => record.map(quoted).join(",") + "\n";

export const fileOf = records => new TextEncoder().encode(records.map(lineOf).join(""));

// What the largest plan has of a kind: 64 signals of each of 256 frames. A name has 32 letters.
const MOST_RECORDS = 16_384;
const LONGEST_FIELD = 1000;

// Why records can be no plan's; empty where they can.
export function excessIn(records) {
  if (records.length > MOST_RECORDS + 1) return `It has ${grouped(records.length - 1)} rows. A plan has at most ${grouped(MOST_RECORDS)} of a kind.`;
  const at = records.findIndex(record => record.length > LONGEST_FIELD || record.some(field => field.length > LONGEST_FIELD));
  if (at < 0) return "";
  const longest = records[at].reduce((most, field) => Math.max(most, field.length), 0);
  return longest > LONGEST_FIELD ? `Row ${at + 1} has a field of ${grouped(longest)} letters, and names have 32 at most.` : `Row ${at + 1} has ${grouped(records[at].length)} fields.`;
}

export const MOST_ROWS = 512;
export const MOST_BYTES = 65536;

// Files of at most 512 rows and 65,536 bytes. The rows of a frame stand together in one of them, be they apart in the file: a replacement takes
// away what a frame that it names had before.
export function partsOf([header, ...rows]) {
  const parts = [], frames = new Map(rows.map(([frame]) => [frame, []]));
  for (const row of rows) frames.get(row[0]).push(row);
  let part = [header], bytes = lineOf(header).length;
  for (const group of frames.values()) {
    const more = fileOf(group).length;
    if (part.length > 1 && (part.length - 1 + group.length > MOST_ROWS || bytes + more > MOST_BYTES)) {
      parts.push(part);
      part = [header];
      bytes = lineOf(header).length;
    }
    for (const row of group) part.push(row);
    bytes += more;
  }
  if (part.length > 1) parts.push(part);
  return parts;
}
