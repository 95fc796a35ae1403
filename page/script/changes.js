// What leads from one state of a supplier's frames to another: as few requests as can be, each of which is carried out whole or not at all.
import {fileOf, HEADERS, partsOf} from "./csv.js";

const HEADS = Object.fromEntries(Object.entries(HEADERS).map(([header, kind]) => [kind, header.split(",")]));
const PLACE = ["slot", "channels", "base", "repetition"];
const SIGNAL = ["name", "start", "length", "order"];
const fieldsOnly = (fields, one) => Object.fromEntries(fields.map(field => [field, one[field]]));
const asText = (fields, one) => fields.map(field => one[field]).join(" ");
const asTexts = (fields, some) => some.map(one => asText(fields, one)).sort().join(", ");

// What a frame has; null where it is not there.
export const stateOf = frame => frame && {node: frame.node, placements: frame.placements.map(one => fieldsOnly(PLACE, one)),
  signals: frame.signals.map(one => fieldsOnly(SIGNAL, one))};

// The states of a supplier's frames, by their names.
export const statesOf = (plan, supplier, names) => new Map([...names].map(name => [name, stateOf(plan.frameNamed(supplier, name))]));

const textOfState = state => state && [state.node, asTexts(PLACE, state.placements), asTexts(SIGNAL, state.signals)].join("; ");
export const isSameState = (one, other) => textOfState(one) === textOfState(other);

// Those of some that others have not.
const without = (fields, some, others) => {
  const there = new Set(others.map(one => asText(fields, one)));
  return some.filter(one => !there.has(asText(fields, one)));
};

// The requests between two states of frames. `others` are the names and nodes of the supplier's frames beside these.
export function requestsBetween(now, then, others) {
  const changes = [...now.keys()].filter(name => !isSameState(now.get(name), then.get(name))).map(name => {
    const from = now.get(name), to = then.get(name);
    return {name, from, to, stays: from && to && from.node === to.node ? from : null};
  });
  const placed = rowChanges(changes, "placements", PLACE), signed = rowChanges(changes, "signals", SIGNAL);
  const {dropped, added} = frameRequests(changes, [...now.keys()].filter(name => then.get(name)).map(name => [name, then.get(name).node]), others);
  return [...dropped, ...placed.taken.map(({name, one}) => command("unplace", name, one)), ...added,
    ...placed.put.map(({name, one}) => command("place", name, one)), ...filed("placements", placed.filed, ({name, to}, one) => [name, to.node, ...valuesOf(PLACE, one)]),
    ...signed.taken.map(({name, one}) => command("drop_signal", name, {signal: one.name})),
    ...signed.put.map(({name, one: {name: signal, ...rest}}) => command("add_signal", name, {signal, ...rest})),
    ...filed("signals", signed.filed, ({name}, one) => [name, ...valuesOf(SIGNAL, one)])];
}

const command = (word, frame, fields) => ({command: {do: word, frame, ...fields}});
const valuesOf = (fields, one) => fields.map(field => String(one[field]));

// Frames that go, and those that come without a placement: one by a command, several by a file. A row of a placement brings its frame along.
function frameRequests(changes, stayed, others) {
  const drops = changes.filter(({from, stays}) => from && !stays).map(({name}) => name);
  const adds = changes.filter(({to, stays}) => to && !stays && !to.placements.length).map(({name, to}) => [name, to.node]);
  const file = (rows, isWhole) => ({file: fileOf([HEADS.frames, ...rows]), isWhole});
  if (drops.length > 1) return {dropped: [file([...others, ...stayed], true)], added: []};
  const added = adds.length > 1 ? [file(adds, false)] : adds.map(([name, node]) => command("add_frame", name, {node}));
  return {dropped: drops.map(name => command("drop_frame", name, {})), added};
}

// Of each frame its rows of a kind: a single one that comes or goes is a command; else all of them are a file's rows; where none is left, each goes by itself.
function rowChanges(changes, kind, fields) {
  const found = {taken: [], put: [], filed: []};
  for (const change of changes.filter(({to}) => to)) {
    const {name, to, stays} = change, old = stays?.[kind] ?? [], gone = without(fields, old, to[kind]), fresh = without(fields, to[kind], old);
    const isOne = gone.length + fresh.length === 1 && (stays || kind === "signals");
    if (isOne || !to[kind].length) {
      found.taken.push(...gone.map(one => ({name, one})));
      found.put.push(...fresh.map(one => ({name, one})));
    } else if (gone.length + fresh.length) found.filed.push({...change, rows: to[kind]});
  }
  return found;
}

// A file of these frames' rows takes the place of what they had, in parts of whole frames where it is too long for one.
function filed(kind, frames, rowOf) {
  const rows = frames.flatMap(frame => frame.rows.map(one => rowOf(frame, one)));
  return rows.length ? partsOf([HEADS[kind], ...rows]).map(part => ({file: fileOf(part), isWhole: false})) : [];
}

// How many rows of a file, below its header, the supplier has already just so.
export function rowsThere(plan, supplier, kind, rows) {
  const has = (fields, some, one) => some.some(other => asText(fields, other) === asText(fields, one));
  const isThere = ([name, ...rest]) => {
    const frame = plan.frameNamed(supplier, name);
    if (!frame) return false;
    if (kind === "signals") return has(SIGNAL, frame.signals, {name: rest[0], start: Number(rest[1]), length: Number(rest[2]), order: rest[3]});
    const [node, slot, channels, base, repetition] = rest;
    return frame.node === node && (kind === "frames" || has(PLACE, frame.placements, {slot: Number(slot), channels, base: Number(base), repetition: Number(repetition)}));
  };
  return rows.filter(isThere).length;
}

// Whether a request does exactly what it says, or is refused, whatever somebody else has changed.
export const isExact = ({command}) => ["place", "unplace", "add_frame", "add_signal"].includes(command?.do);
