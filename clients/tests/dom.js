// As much of a browser as page.html needs: node dom.js PAGE TRIAL runs the page's script, and then the script TRIAL, which may use `page`.
"use strict";
const fs = require("fs");

class Element {
  constructor(name) {
    Object.assign(this, {name, children: [], attributes: {}, listeners: {}, scrollLeft: 0, scrollTop: 0, clientWidth: 1000, own: ""});
  }
  get className() { return this.attributes.class || ""; }
  set className(text) { this.attributes.class = text; }
  get textContent() { return this.own + this.children.map((one) => one.textContent).join(""); }
  set textContent(text) { this.own = text; }
  get scrollHeight() { return this.children.length ? Number(this.children[0].attributes.height || 0) : 0; }
  setAttribute(key, value) { this.attributes[key] = value; }
  append(...some) { this.children.push(...some); }
  replaceChildren(...some) { this.children = some; }
  addEventListener(kind, listener) { (this.listeners[kind] = this.listeners[kind] || []).push(listener); }
  fire(kind, fields = {}) {
    const event = {target: this, stopPropagation() {}, ...fields};
    (this.listeners[kind] || []).forEach((listener) => listener(event));
  }
  all(test) { return [...(test(this) ? [this] : []), ...this.children.flatMap((one) => one.all(test))]; }
  named(kind) { return this.all((one) => one.className.split(" ").includes(kind)); }
}

const text = fs.readFileSync(process.argv[2], "utf-8");
const byId = {};
for (const id of ["fold", "unfold", "brief", "drawings", "data"]) byId[id] = new Element(id);
byId.data.textContent = text.match(/<script type="application\/json" id="data">(.*?)<\/script>/)[1];
byId.brief.checked = /id="brief" checked/.test(text);
global.document = {
  getElementById: (id) => byId[id],
  createElement: (name) => new Element(name),
  createElementNS: (space, name) => new Element(name),
};
const script = text.match(/<script>\n([^]*?)<\/script>/)[1];
const page = {
  byId,
  frames: () => byId.drawings.named("drawing"),
  nodes: (frame) => frame.named("node"),
  words: (frame) => frame.named("node").map((one) => one.children[0].textContent),
};
new Function("page", script + "\n" + fs.readFileSync(process.argv[3], "utf-8"))(page);
