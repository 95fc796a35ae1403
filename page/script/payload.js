// The payload of a frame bit by bit, and the signals in it.
import {bitCount, bitsOf, usedBits} from "./bits.js";
import {button, make, note, options, table, tableRow, textField} from "./dom.js";
import {confirmed, say} from "./messages.js";
import {colourOf, softened} from "./palette.js";
import {keyOf} from "./plan.js";
import {isDigits} from "./reports.js";
import {addSignal, dropSignal} from "./steps.js";
import {bitsText, grouped, plural} from "./words.js";

export function payloadOf(desk, frame) {
  const {signals} = frame, isOpen = desk.mayPlan();
  const matrix = make("div", {class: "scroll", tabindex: "0", role: "group", "aria-label": `Payload of ${frame.name}`});
  if (!isOpen) matrix.append(bitTable(desk.cluster, signals, null, null));
  return [note(`${plural(signals.length, "signal")}, ${usedBits(signals)} of ${grouped(bitCount(desk.cluster))} bits. `
    + "The most significant bit of a byte stands left."), matrix,
    signals.length ? signalTable(desk, frame, signals, isOpen) : "", isOpen ? signalForm(desk, frame, signals, matrix) : ""];
}

function signalTable(desk, frame, signals, isOpen) {
  const drop = signal => button("Drop", async () => {
    if (await confirmed(`Drop ${signal.name}?`, `The signal of ${frame.name} is gone then.`, "Drop it")) dropSignal(desk, frame, signal);
  }, {class: "bad", "aria-label": `Drop the signal ${signal.name}`});
  return table(["signal", ["start", "num"], ["bits", "num"], "order", ""], signals.map(signal => tableRow(
    [signal.name, [signal.start, "num"], [signal.length, "num"], signal.order, isOpen ? drop(signal) : ""])));
}

// The form of a new signal. Its bits are shown in the matrix before it is added, and what was typed stays until it is added.
function signalForm(desk, frame, signals, matrix) {
  const key = keyOf(frame), draft = desk.draft?.key === key ? desk.draft : {name: "", start: "", length: 8, order: "little"};
  const name = textField({id: "signal-name", value: draft.name});
  const start = make("input", {id: "signal-start", type: "number", value: draft.start, min: 0, max: bitCount(desk.cluster) - 1, required: true});
  const length = make("input", {id: "signal-length", type: "number", min: 1, max: 64, value: draft.length, required: true});
  const order = make("select", {id: "signal-order"});
  options(order, [["little", "little: start is the least significant bit"], ["big", "big: start is the most significant bit"]], draft.order);
  const wanted = () => ({name: name.value, start: Number(start.value), length: Number(length.value), order: order.value});
  const pick = bit => { start.value = bit; keep(); draw(); name.focus(); };
  const isWhole = () => start.value !== "" && length.value >= 1 && length.value <= 64;
  const draw = () => matrix.replaceChildren(bitTable(desk.cluster, signals, isWhole() ? wanted() : null, pick));
  const keep = () => { desk.draft = {key, name: name.value, start: start.value, length: length.value, order: order.value}; };
  name.addEventListener("input", keep);
  for (const input of [start, length, order]) input.addEventListener("input", () => { keep(); draw(); });
  const add = event => {
    event.preventDefault();
    if (isDigits(start.value) && isDigits(length.value)) addSignal(desk, frame, wanted());
    else say("bad", "Start bit and bits are whole numbers.");
  };
  draw();
  return make("form", {class: "form", novalidate: "", onsubmit: add},
    make("strong", {class: "wide"}, "New signal"),
    make("label", {for: "signal-name"}, "Name"), name, make("label", {for: "signal-start"}, "Start bit"), start,
    make("label", {for: "signal-length"}, "Bits"), length, make("label", {for: "signal-order"}, "Order"), order,
    make("button", {type: "submit", class: "wide"}, "Add it"));
}

// A byte a row, its most significant bit left. A click on a free bit picks it.
function bitTable(cluster, signals, wanted, pick) {
  const owner = new Map(), want = new Set(wanted ? bitsOf(wanted).filter(bit => bit < bitCount(cluster)) : []), rows = [];
  signals.forEach((signal, at) => { for (const bit of bitsOf(signal)) owner.set(bit, at); });
  for (let byte = 0; byte < cluster.payload_words * 2; byte += 1) {
    const cells = [];
    for (let place = 7; place >= 0;) {
      const bit = byte * 8 + place, wide = stretch(owner, want, bit, place);
      cells.push(bitCell(signals, owner.get(bit), bit, wide, want.has(bit), pick));
      place -= wide;
    }
    rows.push(make("tr", {}, make("th", {scope: "row", class: "byte"}, `byte ${byte}`), cells));
  }
  return make("table", {class: "bits"}, make("thead", {}, make("tr", {}, make("td", {class: "byte"}),
    [7, 6, 5, 4, 3, 2, 1, 0].map(place => make("th", {scope: "col"}, place)))), make("tbody", {}, rows));
}

// How many bits below this one are of the same signal and stand in one cell with it.
function stretch(owner, want, bit, place) {
  let wide = 1;
  if (owner.has(bit)) while (place - wide >= 0 && owner.get(bit - wide) === owner.get(bit) && want.has(bit - wide) === want.has(bit)) wide += 1;
  return wide;
}

function bitCell(signals, at, bit, wide, isWanted, pick) {
  const signal = signals[at];
  const kind = [signal ? "used" : "", isWanted ? signal ? "clash" : "wanted" : ""].join(" ").trim();
  const cell = make("td", {colspan: wide, class: kind, title: signal ? bitsText(signal) : `bit ${bit} is free`});
  cell.append(signal ? (wide > 1 ? signal.name : signal.name.slice(0, 3)) : String(bit));
  if (signal) cell.style.background = softened(colourOf(at));
  else if (pick) cell.addEventListener("click", () => pick(bit));
  return cell;
}
