"use strict";
// A stand-in for a browser's document, for pages of runs in Node: elements, attributes, selectors
// and events, without a layout or pictures. tools/check/page_node.py drives it:
//
//     node page_document.js PAGE.html
//
// reads lines of JSON, each a list of a word and more: js TEXT, key KEY, click TEXT SHIFT (TEXT is
// an element), and prints for each a line of JSON, what came of it or [null, "what failed"].
const fs = require("fs"), vm = require("vm");

const VOID = new Set(["input", "br", "meta", "link", "img"]);
// What an element of a kind closes, where it stands open.
const CLOSES = {td: ["td", "th"], th: ["td", "th"], tr: ["td", "th", "tr"]};
const ENTITIES = {amp: "&", lt: "<", gt: ">"};
const TAG = /<(\/?)([a-z][a-z0-9]*)((?:[^>"']|"[^"]*"|'[^']*')*)>|<!--[^]*?-->|<![^>]*>/gi;

const decoded = text => text.replace(/&(amp|lt|gt);/g, (_, name) => ENTITIES[name]);
let page = null;                           // the document

class Text {
  constructor(data) {
    this.data = data;
    this.parentElement = null;
  }
  get textContent() { return this.data; }
}

class Element {
  constructor(name) {
    Object.assign(this, {localName: name, childNodes: [], parentElement: null, named: {}});
    Object.assign(this, {scrollTop: 0, clientWidth: 0, clientHeight: 0, offsetTop: 0});
    this.listeners = {};
    this.dataset = new Proxy(this.named, {
      get: (named, key) => named[`data-${key}`],
      set: (named, key, value) => (named[`data-${key}`] = String(value), true),
    });
    this.style = {setProperty() {}};
  }
  get tagName() { return this.localName.toUpperCase(); }
  get children() { return this.childNodes.filter(it => it instanceof Element); }
  get firstChild() { return this.childNodes[0] ?? null; }
  get cells() { return this.children; }
  get textContent() { return this.childNodes.map(it => it.textContent).join(""); }
  set textContent(text) { this.replace(String(text) ? [new Text(String(text))] : []); }
  get innerText() { return this.textContent; }
  set innerHTML(text) { this.replace(parsed(text).childNodes); }
  get isConnected() { return this == page.root || !!this.parentElement?.isConnected; }
  replace(nodes) {
    for (const it of this.childNodes) it.parentElement = null;
    this.childNodes = [];
    this.append(...nodes);
  }
  append(...nodes) {
    for (const it of nodes) {
      this.childNodes.push(it);
      it.parentElement = this;
    }
  }
  getAttribute(name) { return this.named[name] ?? null; }
  setAttribute(name, value) { this.named[name] = String(value); }
  removeAttribute(name) { delete this.named[name]; }
  matches(text) { return text.split(",").some(it => isMatch(this, it.trim())); }
  closest(text) { return this.matches(text) ? this : this.parentElement?.closest(text) ?? null; }
  contains(it) { return it == this || !!it?.parentElement && this.contains(it.parentElement); }
  *below() {
    for (const it of this.children) {
      yield it;
      yield* it.below();
    }
  }
  querySelectorAll(text) { return [...this.below()].filter(it => it.matches(text)); }
  querySelector(text) { return this.querySelectorAll(text)[0] ?? null; }
  focus() { page.active = this; }
  blur() { if (page.active == this) page.active = page.body; }
  select() { this.isSelected = true; }
  click() { this.dispatchEvent(new PageEvent("click", {bubbles: true})); }
  showModal() { this.open = true; }
  close() { this.open = false; }
  scrollIntoView() {}
  checkVisibility() { return true; }
  getBoundingClientRect() { return {x: 0, y: 0, width: 0, height: 0}; }
  getContext() { return PEN; }
  addEventListener(kind, act) { (this.listeners[kind] ||= []).push(act); }
  dispatchEvent(event) {
    event.target ||= this;
    for (let it = this; it && !event.isStopped; it = it.parentElement) {
      it[`on${event.type}`]?.(event);
      for (const act of it.listeners[event.type] || []) act(event);
    }
    if (!event.isStopped) page.window.heard(event);
  }
}

// Attributes that are properties too.
const NAMES = {id: "id", className: "class", title: "title", value: "value", type: "type",
               placeholder: "placeholder", ariaLabel: "aria-label"};
for (const [property, name] of Object.entries(NAMES)) {
  Object.defineProperty(Element.prototype, property, {
    get() { return this.named[name] ?? (name == "aria-label" ? null : ""); },
    set(value) { this.named[name] = String(value); },
  });
}
for (const name of ["hidden", "disabled", "open"]) {
  Object.defineProperty(Element.prototype, name, {
    get() { return name in this.named; },
    set(is) { is ? this.named[name] = "" : delete this.named[name]; },
  });
}
Object.defineProperty(Element.prototype, "tabIndex", {
  get() {
    const isField = /^(button|input|select)$/.test(this.localName);
    return +(this.named.tabindex ?? (isField ? 0 : -1));
  },
  set(number) { this.named.tabindex = String(number); },
});
Object.defineProperty(Element.prototype, "classList", {
  get() { return {contains: name => this.className.split(/\s+/).includes(name)}; },
});

const PEN = new Proxy({}, {get: () => () => ({}), set: () => true});

class PageEvent {
  constructor(type, more = {}) {
    Object.assign(this, {type, ctrlKey: false, metaKey: false, altKey: false, shiftKey: false});
    Object.assign(this, more);
  }
  preventDefault() { this.defaultPrevented = true; }
  stopPropagation() { this.isStopped = true; }
}

function attributesOf(text) {
  const found = {}, one = /([\w-]+)(?:=("[^"]*"|'[^']*'|[^\s"'>]+))?/g;
  for (const [, name, value = ""] of text.matchAll(one)) {
    found[name.toLowerCase()] = decoded(value.replace(/^(["'])([^]*)\1$/, "$2"));
  }
  return found;
}

// The elements of a text, below one.
function parsed(text) {
  const root = new Element("root"), open = [root];
  let at = 0;
  const say = words => words && open.at(-1).append(new Text(decoded(words)));
  TAG.lastIndex = 0;
  for (let tag; tag = TAG.exec(text);) {
    say(text.slice(at, tag.index));
    at = TAG.lastIndex;
    const [, isEnd, name = "", rest] = tag, kind = name.toLowerCase();
    if (isEnd) {
      const k = open.map(it => it.localName).lastIndexOf(kind);
      if (k > 0) open.length = k;
    } else if (kind) {
      while (CLOSES[kind]?.includes(open.at(-1).localName)) open.pop();
      const made = new Element(kind);
      Object.assign(made.named, attributesOf(rest));
      open.at(-1).append(made);
      if (kind == "script" || kind == "style") {
        const end = text.indexOf(`</${kind}>`, at);
        made.append(new Text(text.slice(at, end)));
        at = TAG.lastIndex = end + kind.length + 3;
      } else if (!VOID.has(kind)) open.push(made);
    }
  }
  say(text.slice(at));
  return root;
}

// Whether an element is what a selector says: compounds with blanks between them.
function isMatch(element, selector) {
  const parts = selector.match(/(?:\[[^\]]*\]|\([^)]*\)|[^\s])+/g), last = parts.pop();
  if (!isCompound(element, last)) return false;
  if (!parts.length) return true;
  const above = parts.join(" ");
  let it = element.parentElement;
  while (it && !isMatch(it, above)) it = it.parentElement;
  return !!it;
}

function isCompound(element, text) {
  const part = /([#.]?)([\w-]+)|\[([\w-]+)(?:=["']?([^"'\]]*)["']?)?\]|:not\(([^)]*)\)|\*/g;
  for (const [, sort, name, key, value, without] of text.matchAll(part)) {
    if (without !== undefined ? isCompound(element, without) : key
      ? !(key in element.named) || value !== undefined && element.named[key] != value
      : sort == "#" ? element.id != name : sort == "." ? !element.classList.contains(name)
        : name && element.localName != name) return false;
  }
  return true;
}

function windowOf(path) {
  const heard = {};
  const window = {
    heard: event => (heard[event.type] || []).forEach(act => act(event)),
    addEventListener: (kind, act) => (heard[kind] ||= []).push(act),
    matchMedia: () => ({matches: false}), devicePixelRatio: 1, innerWidth: 1280, innerHeight: 720,
    getComputedStyle: it => ({color: "rgb(0, 0, 0)", fontSize: "13", lineHeight: "18", content:
      it.closest("tr.end") ? "the run ends here" : "", getPropertyValue: () => "monospace"}),
    requestAnimationFrame: act => setTimeout(() => act(performance.now()), 1),
    cancelAnimationFrame: clearTimeout, MouseEvent: PageEvent, Event: PageEvent,
    setTimeout, clearTimeout, performance, queueMicrotask, TextDecoder, TextEncoder, atob, btoa,
    console, Intl, navigator: {},
    get localStorage() { throw new Error("there is none"); },
  };
  let hash = "";
  window.location = {
    protocol: "file:",
    get href() { return `file://${path}${hash}`; },
    get hash() { return hash; },
    set hash(text) {
      hash = text;
      const newURL = window.location.href;
      setTimeout(() => window.heard(new PageEvent("hashchange", {newURL})));
    },
  };
  window.history = {replaceState: (_, __, address) => { hash = address.replace(/^[^#]*/, ""); }};
  return window;
}

function openPage(path) {
  const root = parsed(fs.readFileSync(path, "utf8")), window = windowOf(path);
  page = {root, window, readyState: "complete", active: null,
    body: root.querySelector("body"), documentElement: root.querySelector("html"),
    getElementById: id => [...root.below()].find(it => it.id == id) ?? null,
    createElement: name => new Element(name),
    querySelector: text => root.querySelector(text),
    querySelectorAll: text => root.querySelectorAll(text),
    get activeElement() { return this.active?.isConnected ? this.active : this.body; }};
  const known = {};
  const slow = page.getElementById;
  page.getElementById = id => known[id]?.isConnected ? known[id] : known[id] = slow(id);
  const context = vm.createContext(Object.assign(window, {document: page, window}));
  const scripts = root.querySelectorAll("script").filter(it => it.type != "text/plain");
  for (const script of scripts) vm.runInContext(script.textContent, context);
  return context;
}

// A key takes the place of a text that is selected.
function type(field, key) {
  field.value = field.isSelected ? key : field.value + key;
  field.isSelected = false;
}

function press(key) {
  const event = new PageEvent("keydown", {key, bubbles: true});
  const {activeElement: target} = page;
  target.dispatchEvent(event);
  if (event.defaultPrevented) return;
  if (key == "Enter" && target.localName == "button") target.click();
  if (key.length == 1 && target.localName == "input") type(target, key);
}

const ACTS = {
  js: (context, text) => vm.runInContext(text, context),
  key: (context, key) => press(key),
  click: (context, text, shiftKey) =>
    vm.runInContext(text, context).dispatchEvent(new PageEvent("click", {bubbles: true, shiftKey})),
};

async function serve() {
  const context = openPage(process.argv[2]), {createInterface} = require("readline");
  for await (const line of createInterface({input: process.stdin})) {
    const [word, ...words] = JSON.parse(line);
    let told;
    try {
      told = [await ACTS[word](context, ...words) ?? null];
    } catch (fault) {
      told = [null, String(fault.stack)];
    }
    console.log(JSON.stringify(told));
  }
  process.exit();
}

serve();
