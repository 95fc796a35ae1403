// The keys that do the same wherever the keyboard is on the page.
import {byId} from "./dom.js";
import {endMode} from "./planview.js";
import {redo, undo} from "./turning.js";

export function keyboard(desk) {
  document.addEventListener("keydown", event => {
    if (!desk.register || byId("dialog").open) return;
    const isTyping = /^(INPUT|SELECT|TEXTAREA)$/.test(document.activeElement?.tagName ?? "");
    if (event.key === "Escape") endMode(desk);
    else if (event.key === "/" && !isTyping) { event.preventDefault(); byId("search").focus(); }
    else if ((event.ctrlKey || event.metaKey) && !isTyping) turned(desk, event);
  });
}

// Ctrl+Z takes the last step back; Ctrl+Y, or Ctrl+Shift+Z, does it again.
function turned(desk, event) {
  const key = event.key.toLowerCase(), isBack = key === "z" && !event.shiftKey;
  if (!isBack && key !== "y" && key !== "z") return;
  event.preventDefault();
  if (isBack) undo(desk);
  else redo(desk);
}
