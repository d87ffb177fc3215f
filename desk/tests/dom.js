// SPDX-License-Identifier: LicenseRef-Wengeludo
// As much of a browser's document as the desk's scripts use, for node: a page is read, a script is run in it, events are sent, and the page is told.
"use strict";
const VOID = new Set(["meta", "link", "input", "br", "img", "hr", "path", "circle", "rect", "line", "polygon"]);
const calls = [];
class Node {
  constructor(tag) { Object.assign(this, { tag, attributes: {}, childNodes: [], parent: null, listeners: {}, value: "", checked: false, hidden: false }); }
  get id() { return this.attributes.id ?? ""; }
  set id(value) { this.attributes.id = value; }
  get name() { return this.attributes.name ?? ""; }
  set name(value) { this.attributes.name = value; }
  get type() { return this.attributes.type ?? "text"; }
  set type(value) { this.attributes.type = value; }
  get className() { return this.attributes.class ?? ""; }
  set className(value) { this.attributes.class = value; }
  get children() { return this.childNodes.filter((one) => one instanceof Node); }
  get firstElementChild() { return this.children[0]; }
  get rows() { return this.children.filter((one) => one.tag === "tr"); }
  get cells() { return this.children.filter((one) => one.tag === "td" || one.tag === "th"); }
  get textContent() { return this.childNodes.map((one) => (one instanceof Node ? one.textContent : one)).join(""); }
  set textContent(text) { this.childNodes = text === "" ? [] : [String(text)]; }
  set innerHTML(text) { this.childNodes = []; read(text, this); }
  get dataset() {
    const name = (key) => "data-" + key.replace(/[A-Z]/g, (letter) => "-" + letter.toLowerCase());
    return new Proxy(this.attributes, { get: (all, key) => all[name(key)], set: (all, key, value) => { all[name(key)] = String(value); return true; },
      deleteProperty: (all, key) => delete all[name(key)] });
  }
  get classList() {
    const words = () => this.className.split(" ").filter(Boolean), put = (all) => { this.className = all.join(" "); };
    return { contains: (word) => words().includes(word), add: (word) => put([...new Set([...words(), word])]), remove: (word) => put(words().filter((one) => one !== word)),
      toggle: (word, on = !words().includes(word)) => { put([...words().filter((one) => one !== word), ...(on ? [word] : [])]); return on; } };
  }
  getAttribute(name) { return this.attributes[name] ?? null; }
  setAttribute(name, value) { this.attributes[name] = String(value); }
  removeAttribute(name) { delete this.attributes[name]; }
  append(...all) { for (const one of all) this.appendChild(one); }
  appendChild(one) {
    if (one.parent) one.parent.childNodes = one.parent.childNodes.filter((other) => other !== one);
    if (one instanceof Node) one.parent = this;
    this.childNodes.push(one);
    return one;
  }
  replaceChildren(...all) { this.childNodes = []; this.append(...all); }
  addEventListener(name, call) { (this.listeners[name] ??= []).push(call); }
  dispatch(name, more = {}) {
    const event = { type: name, target: this, preventDefault() { calls.push(`prevented ${name}`); }, ...more };
    for (let at = this; at; at = at.parent) for (const call of at.listeners[name] ?? []) call(event);
    for (const call of document.listeners[name] ?? []) call(event);
  }
  click(more) { this.dispatch("click", more); }
  focus() { document.activeElement = this; calls.push(`focus ${this.id || this.tag}`); }
  scrollIntoView(how) { calls.push(`scroll ${this.id || this.className || this.tag} ${JSON.stringify(how)}`); }
  setSelectionRange(from, to) { calls.push(`select ${from} ${to}`); }
  matches(text) { return text.split(",").some((one) => fits(this, one.trim())); }
  closest(text) { for (let at = this; at; at = at.parent) if (at.matches(text)) return at; return null; }
  all() { return this.children.flatMap((one) => [one, ...one.all()]); }
  querySelectorAll(text) { return this.all().filter((one) => one.matches(text)); }
  querySelector(text) { return this.querySelectorAll(text)[0] ?? null; }
}
function fits(node, text) {
  const parts = text.split(/ +(?![^[]*\])/), last = parts.pop();
  if (!/^([#.]?[\w-]+|\[[^\]~]+\])+$/.test(last)) throw new SyntaxError(`no selector: ${text}`);
  for (const [, sign, word] of last.matchAll(/([#.]?)([\w-]+|\[[^\]]+\])/g)) {
    if (word[0] === "[") {
      const [, name, value] = /\[([\w-]+)(?:="?([^"\]]*)"?)?\]/.exec(word);
      if (!(name in node.attributes) || (value !== undefined && node.attributes[name] !== value)) return false;
    } else if (sign === "#" ? node.id !== word : sign === "." ? !node.classList.contains(word) : node.tag !== word) return false;
  }
  return !parts.length || Boolean(node.parent && (function above(at) { return at && (fits(at, parts.join(" ")) || above(at.parent)); })(node.parent));
}
const plain = (text) => text.replace(/&#39;/g, "'").replace(/&#34;|&quot;/g, '"').replace(/&lt;/g, "<").replace(/&gt;/g, ">").replace(/&amp;/g, "&");
function read(text, root) {
  let at = root;
  for (const [, comment, end, tag, words, rest] of text.matchAll(/(<!--.*?-->|<![^>]*>)|<(\/?)([\w-]+)((?:[^>"]|"[^"]*")*)>|([^<]+)/gs)) {
    if (comment) continue;
    if (rest !== undefined) { if (at) at.childNodes.push(plain(rest)); continue; }
    if (end) { for (let up = at; up && up !== root; up = up.parent) if (up.tag === tag) { at = up.parent; break; } continue; }
    const one = at.appendChild(new Node(tag));
    for (const [, name, value] of words.matchAll(/([\w:-]+)(?:="([^"]*)")?/g)) one.attributes[name] = plain(value ?? "");
    one.value = one.attributes.value ?? "";
    one.checked = "checked" in one.attributes;
    one.hidden = "hidden" in one.attributes;
    if (!VOID.has(tag) && !words.endsWith("/")) at = one;
  }
}
const root = new Node("#document");
const document = { listeners: {}, activeElement: null, createElement: (tag) => new Node(tag), createElementNS: (_, tag) => new Node(tag),
  addEventListener(name, call) { (this.listeners[name] ??= []).push(call); }, getElementById: (id) => root.all().find((one) => one.id === id) ?? null,
  querySelector: (text) => root.querySelector(text), querySelectorAll: (text) => root.querySelectorAll(text), get body() { return root.querySelector("body"); } };
function told(node) {
  const words = Object.entries(node.attributes).filter(([name]) => !/^(style|d|points|viewBox|aria-label|title|href|action)$/.test(name)).map(([name, value]) => `${name}=${value}`);
  const state = `${node.hidden ? " hidden" : ""}${node.checked ? " checked" : ""}${node.disabled ? " disabled" : ""}${node.open ? " open" : ""}${node.search !== undefined ? ` ?${node.search}` : ""}`;
  return { line: `<${node.tag} ${words.join(" ")}${node.value !== "" ? ` :${node.value}` : ""}${state}>` };
}
function page(node, deep = 0) {
  const inner = node.childNodes.map((one) => (one instanceof Node ? page(one, deep + 1) : one.trim() && " ".repeat(deep + 1) + one.trim().replace(/\s+/g, " ") + "\n")).join("");
  return node.tag === "script" || node.tag === "style" ? "" : " ".repeat(deep) + told(node).line + "\n" + inner;
}
module.exports = { Node, document, read, root, page, calls };
