// The page's address: which variant, view and frame are shown stands behind its `#`, so that a link leads there, and Back goes back.
import {attempt, say} from "./messages.js";
import {choose} from "./reading.js";
import {short} from "./words.js";

const SHOWN = ["plan", "frames", "lanes", "files", "diff", "manage"];

// What an address wants to be shown: `#my30`, `#my30/frames`, `#my30/frames/free_space`.
export function wantedBy(hash) {
  const [variant = "", view = "plan", frame = null] = hash.replace(/^#/, "").split("/").map(unquoted);
  return {variant, view: SHOWN.includes(view) ? view : "plan", frame};
}

function unquoted(text) {
  try { return decodeURIComponent(text); } catch { return text; }
}

function hashOf({variant, view, frame}) {
  if (variant === null) return "";
  return "#" + [variant, ...(frame ? [view, frame.name] : view === "plan" ? [] : [view])].join("/");
}

// Keeps the address as what is shown, and shows what it is changed to.
export function addressed(desk) {
  const keep = () => {
    const hash = hashOf(desk);
    if (!desk.register || hash === location.hash) return;
    if (wantedBy(location.hash).variant === desk.variant) history.pushState(null, "", hash);
    else history.replaceState(null, "", hash);
  };
  desk.on("plan view choice", keep);
  window.addEventListener("popstate", () => { if (desk.plan) follow(desk, wantedBy(location.hash)); });
}

// What is said of a variant that an address names, and that is not there.
export const noSuch = variant => `There is no variant ${short(variant)}.`;

async function follow(desk, {variant, view, frame}) {
  if (!desk.variants.some(({name}) => name === variant)) {
    say("warn", noSuch(variant));
    return;
  }
  if (variant !== desk.variant) await attempt(desk, () => choose(desk, variant), `Reading ${variant} ...`);
  if (variant === desk.variant) showWanted(desk, {view, frame});
}

// Shows a view and a frame of the variant that is there.
export function showWanted(desk, {view, frame}) {
  const found = desk.plan?.frames.find(({name}) => name === frame) ?? null;
  if (found !== desk.frame) desk.choose({frame: found});
  if (view !== desk.view) desk.show(view);
  if (frame !== null && !found) say("warn", `${desk.variant} has no frame ${short(frame)}.`);
}
