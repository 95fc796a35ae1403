// Taking back steps, and doing them again: from the state in which a step left what it changed to the one before it, or the other way round.
import {isExact, isSameState, requestsBetween, statesOf} from "./changes.js";
import {button, byId, make, table, tableRow} from "./dom.js";
import {bySomebody} from "./meanwhile.js";
import {attempt, inTurn, openDialog, say} from "./messages.js";
import {reread} from "./reading.js";
import {firstOf, grouped} from "./words.js";

export const undo = desk => turn(desk, true);
export const redo = desk => turn(desk, false);

// What a step says that cannot be turned.
const stays = isBack => isBack ? "This step cannot be taken back now, and stays in the list." : "This step cannot be done again now, and stays in the list.";

const turn = (desk, isBack) => inTurn(desk, () => turnNow(desk, isBack));

async function turnNow(desk, isBack) {
  const history = desk.history(), step = history.next(isBack);
  if (!step || !desk.isOpen()) return false;
  const isTurned = await attempt(desk, async () => {
    try {
      const others = step.changes ? await step.turn(desk, history, isBack) : await turnFrames(desk, step, isBack);
      if (others === null) return false;
      history.turn(isBack);
      const again = button(isBack ? "Redo" : "Undo", () => turn(desk, !isBack));
      say("good", `${isBack ? "Taken back" : "Done again"}: ${step.label}.${others}`, again);
      return true;
    } catch (fault) {
      fault.message = `${stays(isBack)} ${fault.message}`;
      throw fault;
    }
  }, `${isBack ? "Taking back" : "Doing again"}: ${step.label} ...`);
  desk.tell("undo");
  return isTurned === true;
}

// Gives what somebody else changed meanwhile, as words; or null where the step stays.
async function turnFrames(desk, {before, after}, isBack) {
  const {me, variant} = desk, [from, to] = isBack ? [after, before] : [before, after], names = [...from.keys()];
  const others = () => desk.plan.frames.filter(({name}) => !from.has(name)).map(({name, node}) => [name, node]);
  if (!requestsBetween(from, to, others()).every(isExact)) {
    await reread(desk);
    const now = statesOf(desk.plan, me, names), changed = names.filter(name => !isSameState(now.get(name), from.get(name)));
    if (changed.length) {
      say("warn", `${stays(isBack)} Somebody else changed what it needs: ${firstOf(changed, 5)}.`);
      return null;
    }
  }
  await sendAll(desk, variant, requestsBetween(from, to, others()));
  if (desk.frame && to.get(desk.frame.name) === null) desk.choose({});
  return bySomebody(await reread(desk, {isOwn: ({name}) => from.has(name), isOwnSignal: ({name}) => from.has(name)}));
}

async function sendAll({register}, variant, requests) {
  let count = 0;
  try {
    for (const {command, file, isWhole} of requests) {
      if (command) await register.command({variant, ...command});
      else await register.replaced(variant, file, isWhole);
      count += 1;
    }
  } catch (fault) {
    if (count) Object.assign(fault, {isOwn: () => false, message: `${count} of its ${requests.length} requests were carried out. ${fault.message}`});
    throw fault;
  }
}

// The list of the steps, the last one first. Each can be gone back to, or forward.
export function openHistory(desk) {
  const history = desk.history(), rows = [];
  const goTo = async (isBack, step) => {
    closeDialog();
    while (history.next(isBack)) {
      const {label} = history.next(isBack), isLast = history.next(isBack) === step;
      if (!await turn(desk, isBack) || isLast) return label;
    }
    return "";
  };
  const closeDialog = () => byId("dialog").close("");
  history.undone.forEach(step => rows.push(tableRow([step.label, "taken back", button("Do again up to here", () => goTo(false, step))], "quiet-row")));
  [...history.done].reverse().forEach(step => rows.push(tableRow([step.label, "done", button("Take back from here on", () => goTo(true, step))])));
  const content = rows.length ? make("div", {class: "scroll"}, table(["step", "", ""], rows)) : make("p", {}, "Nothing was changed yet since the page was opened.");
  openDialog(`${grouped(history.done.length)} steps in ${desk.variant}`, [content, make("menu", {}, button("Close", closeDialog))]);
}
