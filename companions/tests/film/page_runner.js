"use strict";
// Runs the page's script, after what scripts of pages share, over a document that takes everything and shows nothing, presses keys, and writes what it says of itself; or, where the
// environment has an EXPRESSION, what that is there.
const fs = require("fs");
const path = require("path");
const vm = require("vm");

const elements = new Map();
class Element {
  constructor() {
    [this.children, this.style, this.value, this.max, this.textContent, this.listeners] = [[], {}, "", "", "", {}];
    this.classList = { add() {}, toggle() {}, remove() {}, contains: () => false };
  }
  append(...parts) { this.children.push(...parts.map((part) => (typeof part === "string" ? new Element() : part))); }
  replaceChildren(...parts) { this.children = parts; }
  get firstChild() { return this.children[0]; }
  get lastChild() { return this.children[this.children.length - 1]; }
  addEventListener(name, does) { this.listeners[name] = does; }
  querySelectorAll() { return []; }
  querySelector() { return null; }
  closest() { return new Element(); }
  getBoundingClientRect() { return { top: 0, height: 0 }; }
  setAttribute() {}
  removeAttribute() {}
  focus() {}
  remove() {}
  select() {}
}
const byId = (id) => elements.get(id) || elements.set(id, new Element()).get(id);
byId("data").textContent = fs.readFileSync(0, "utf8");
const document = new Element();
Object.assign(document, { getElementById: byId, createElement: () => new Element(), createElementNS: () => new Element(), body: new Element(), execCommand() {} });
const window = new Element();
const context = { document, window, location: { hash: "" }, history: { replaceState() {} }, navigator: { clipboard: { writeText: async () => {} } }, innerWidth: 1280, setTimeout() {} };
const scripts = [path.join(path.dirname(process.argv[2]), "../pages/common.js"), process.argv[2]];
vm.runInNewContext(scripts.map((script) => fs.readFileSync(script, "utf8")).join(""), context);
const seen = [byId("at").textContent];
for (const key of process.argv.slice(3)) {
  document.listeners.keydown({ key, target: { tagName: "BODY" }, preventDefault() {} });
  seen.push(byId("at").textContent);
}
const said = process.env.EXPRESSION ? () => vm.runInContext(process.env.EXPRESSION, context) : () => [...seen, byId("said").textContent];
setImmediate(() => process.stdout.write(JSON.stringify(said())));
