"""Modules of the planners' page that need no browser, run by node. NODE names another one than that on PATH."""
import json
import os
import shutil
import subprocess

from tests import TOP
from tests.runner.case import Case

from .program import SECONDS

NODE = os.environ.get("NODE") or shutil.which("node")
LACKS = "" if NODE else "no node: apt-get install nodejs"
# A script has the modules of these names, and is given a value; what it returns is written as JSON.
FRAME = """import {{readFileSync}} from "node:fs";
{imports}
const given = JSON.parse(readFileSync(0, "utf-8"));
const script = async given => {{ {script} }};
const told = JSON.stringify((await script(given)) ?? null, (_, value) => value === Infinity ? "never" : value);
process.stdout.write(told, () => process.exit(0));
"""
# What modules ask of a page: elements that keep what is put into them, and nothing more.
PAGE = """
class Element {
  constructor() { Object.assign(this, {children: [], attributes: {}, style: {}, textContent: "", hidden: false, disabled: false, className: "", value: ""}); }
  get classList() { return {contains: word => this.className.split(" ").includes(word), toggle() {}, add() {}, remove() {}}; }
  append(...more) { this.children.push(...more); }
  replaceChildren(...more) { this.children = more; }
  setAttribute(name, value) { this.attributes[name] = value; }
  removeAttribute(name) { delete this.attributes[name]; }
  hasAttribute(name) { return name in this.attributes; }
  getAttribute(name) { return this.attributes[name] ?? null; }
  addEventListener(name, act) { this["on" + name] = act; }
  contains() { return false; }
  matches() { return false; }
  querySelectorAll() { return []; }
  text() { return this.children.map(child => child instanceof Element ? child.text() : String(child)).join("") || this.textContent; }
}
const elements = new Map();
globalThis.Node = Element;
globalThis.document = {
  body: new Element(), activeElement: null, createElement: () => new Element(),
  getElementById: id => elements.get(id) ?? elements.set(id, new Element()).get(id),
};
globalThis.window = {addEventListener() {}};
"""


class ModulesCase(Case):
    """A test of modules of the page."""

    may_be_skipped = True
    seconds = 10

    def setUp(self):
        super().setUp()
        if LACKS:
            self.skipTest(LACKS)
        shutil.copytree(TOP / "page/script", self.folder / "script")
        (self.folder / "package.json").write_text('{"type": "module"}')
        (self.folder / "page.js").write_text(PAGE)

    def run_script(self, imports, script, given=None):
        """What a script returns. The imports are names by their modules, as `{"cycles": "gapOf"}`."""
        lines = ['import "./page.js";', *(f'import {{{names}}} from "./script/{module}.js";' for module, names in imports.items())]
        (self.folder / "tried.js").write_text(FRAME.format(imports="\n".join(lines), script=script))
        how = {"cwd": self.folder, "input": json.dumps(given), "capture_output": True, "text": True, "timeout": SECONDS}
        done = subprocess.run([NODE, "tried.js"], **how)
        if done.returncode:
            raise AssertionError(f"node: {done.stderr[-1500:]}")
        return json.loads(done.stdout)
