// The steps on frames and signals that are carried out at once. Each is kept in the history, by which it can be taken back.
import {isSameState, statesOf} from "./changes.js";
import {button} from "./dom.js";
import {bySomebody} from "./meanwhile.js";
import {attempt, inTurn, say} from "./messages.js";
import {keyOf} from "./plan.js";
import {reread} from "./reading.js";
import {undo} from "./turning.js";
import {bitsText, placeText} from "./words.js";

// Says what was done. A step can be taken back by the message, by the button of the plan and by the keyboard.
export function done(desk, text, step = null, kind = "good") {
  if (step) {
    desk.history().add(step);
    desk.tell("undo");
  }
  say(kind, text, step ? button("Undo", () => undo(desk)) : "");
}

// Carries out a command on a frame, reads the plan again, and says what became of the frame and what somebody else changed meanwhile.
const step = (desk, name, request, label, told, isOwnSignal) => inTurn(desk, () => attempt(desk, async () => {
  const {me, variant} = desk, before = statesOf(desk.plan, me, [name]), gap = desk.plan.frameNamed(me, name)?.gap;
  await desk.register.command({variant, frame: name, ...request});
  if (request.do === "add_signal") desk.draft = null;
  if (request.do === "drop_frame" && desk.frame?.name === name) desk.choose({});
  const others = bySomebody(await reread(desk, {isOwn: one => one.name === name && isAsLeft(desk, before, name, request), isOwnSignal}));
  done(desk, told(gap) + others, {label, before, after: statesOf(desk.plan, me, [name])});
}, `Sending: ${label} ...`));

const plain = ({slot, channels, base, repetition}) => ({slot, channels, base, repetition});
const placesOf = (state, request) => {
  const places = state?.placements ?? [], fields = plain(request), isIt = one => placeText(one) === placeText(fields);
  return request.do === "place" ? [...places, fields] : request.do === "unplace" ? places.filter(one => !isIt(one)) : places;
};

// Whether the frame's placements are those that the command leaves it with.
function isAsLeft(desk, before, name, request) {
  const then = before.get(name), now = statesOf(desk.plan, desk.me, [name]).get(name);
  if (["add_frame", "drop_frame"].includes(request.do)) return true;
  return now !== null && then !== null && isSameState({...now, signals: []}, {...then, placements: placesOf(then, request), signals: []});
}

// The cells are marked until the register has answered.
export async function place(desk, {name}, placement) {
  const fields = plain(placement), where = placeText(fields), gapNow = () => desk.plan.frameNamed(desk.me, name)?.gap ?? Infinity;
  desk.pending.push(fields);
  desk.tell("pending");
  await step(desk, name, {do: "place", ...fields}, `${name} placed in ${where}`,
    gap => `${name} is placed in ${where}. Its greatest gap is ${desk.times.text(gapNow())}; it was ${desk.times.number(gap)}.`);
  desk.pending = desk.pending.filter(one => one !== fields);
  desk.tell("pending");
}

export function unplace(desk, {name}, placement) {
  const where = placeText(placement);
  return step(desk, name, {do: "unplace", ...plain(placement)}, `${name} taken out of ${where}`, () => `${name} is no longer sent in ${where}.`);
}

export const addFrame = (desk, name, node) => step(desk, name, {do: "add_frame", node}, `${name} added`, () => {
  desk.choose({frame: desk.plan.frameNamed(desk.me, name)});
  return `${name} is added. It is not placed yet.`;
});

export const dropFrame = (desk, name) => step(desk, name, {do: "drop_frame"}, `${name} dropped`, () => `${name} is dropped.`);

const isOwnSignal = (frame, signal) => (one, name) => keyOf(one) === keyOf(frame) && name === signal.name;

export function addSignal(desk, frame, signal) {
  const {name, start, length, order} = signal, told = () => `${name} is added to ${frame.name}.`;
  return step(desk, frame.name, {do: "add_signal", signal: name, start, length, order}, `signal ${name} added to ${frame.name}`, told, isOwnSignal(frame, signal));
}

export function dropSignal(desk, frame, signal) {
  const told = () => `${signal.name} is dropped from ${frame.name}. It was ${bitsText(signal)}.`;
  return step(desk, frame.name, {do: "drop_signal", signal: signal.name}, `signal ${signal.name} dropped from ${frame.name}`, told, isOwnSignal(frame, signal));
}
