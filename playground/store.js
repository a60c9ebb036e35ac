"use strict";
// What outlives a page: a text in the part of a link behind `#`, and one in the browser's store.
const {packLink, unpackLink, Shelf} = (() => {

const MOST_TEXT = 1 << 20;
const SHELVES = 16;
const KEY = "mos65.text.";

function toBase64Url(bytes) {
  let text = "";
  for (let at = 0; at < bytes.length; at += 8192) {
    text += String.fromCharCode(...bytes.subarray(at, at + 8192));
  }
  return btoa(text).replace(/\+/g, "-").replace(/\//g, "_").replace(/=+$/, "");
}

function fromBase64Url(text) {
  const plain = atob(text.replace(/-/g, "+").replace(/_/g, "/"));
  return Uint8Array.from(plain, c => c.charCodeAt(0));
}

// All bytes of a stream, or an error where they are too many: a short link may unpack to gigabytes.
async function collected(stream, most) {
  const reader = stream.getReader(), parts = [];
  let count = 0;
  for (;;) {
    const {done, value} = await reader.read();
    if (done) break;
    count += value.length;
    if (count > most) {
      await reader.cancel();
      throw new Error("the text in the link is too long");
    }
    parts.push(value);
  }
  const all = new Uint8Array(count);
  count = 0;
  for (const part of parts) {
    all.set(part, count);
    count += part.length;
  }
  return all;
}

function through(bytes, filter, most) {
  return collected(new Blob([bytes]).stream().pipeThrough(filter), most);
}

// The part of a link behind `#` that holds a text: `z=` is compressed, `t=` is not.
async function packLink(text, hasScreen) {
  const bytes = new TextEncoder().encode(text), tail = hasScreen ? "&screen" : "";
  if (typeof CompressionStream == "undefined") return "#t=" + toBase64Url(bytes) + tail;
  const packed = await through(bytes, new CompressionStream("deflate-raw"), Infinity);
  return "#z=" + toBase64Url(packed) + tail;
}

// What such a part holds, or null where it is none. It is thrown where it cannot be read.
async function unpackLink(hash) {
  if (!/^#[zt]=/.test(hash)) return null;
  const found = /^#([zt])=([\w-]*)(&screen)?$/.exec(hash);
  if (!found) throw new Error("it is cut off, or no base64");
  const bytes = fromBase64Url(found[2]);
  const plain = found[1] == "t" ? bytes
    : await through(bytes, new DecompressionStream("deflate-raw"), MOST_TEXT);
  if (plain.length > MOST_TEXT) throw new Error("the text in the link is too long");
  return {text: new TextDecoder().decode(plain), hasScreen: !!found[3]};
}

// The texts of pages in the browser's store, each page's own under an id, so that no page writes
// over the text of another. `local` outlives the page, `own` a reload alone.
class Shelf {
  constructor(local, own, newId) {
    Object.assign(this, {local, own, newId});
    this.id = this.ask(own, "mos65.id") || this.takeNewId();
  }

  ask(store, key) {
    try {
      return store.getItem(key);
    } catch {
      return null;                 // no store, or none that may be read
    }
  }

  put(store, key, value) {
    try {
      store.setItem(key, value);
      return true;
    } catch {
      return false;                // no store, or a full one
    }
  }

  // Another page has this id too, as a copied tab has: this one takes a new id.
  takeNewId() {
    this.id = this.newId();
    this.put(this.own, "mos65.id", this.id);
    return this.id;
  }

  isMine(key) {
    return key == KEY + this.id;
  }

  // Keeps the text of this page. Returns whether it is kept.
  keep(it) {
    const value = JSON.stringify(it);
    if (this.put(this.local, KEY + this.id, value)) return true;
    for (const {id} of this.others().reverse()) {
      this.drop(id);
      if (this.put(this.local, KEY + this.id, value)) return true;
    }
    return false;
  }

  mine() {
    return this.read(this.id);
  }

  read(id) {
    try {
      const it = JSON.parse(this.local.getItem(KEY + id));
      return it && typeof it.text == "string" ? {...it, id} : null;
    } catch {
      return null;
    }
  }

  // The texts of other pages, the newest first. Those that are too many or not worth it are
  // dropped.
  others(isWorth = () => true) {
    let keys = [];
    try {
      keys = Object.keys(this.local).filter(key => key.startsWith(KEY) && !this.isMine(key));
    } catch {
      return [];
    }
    const all = keys.map(key => this.read(key.slice(KEY.length))).filter(it => it);
    const found = all.filter(it => isWorth(it.text));
    found.sort((a, b) => (b.at || 0) - (a.at || 0));
    const kept = found.slice(0, SHELVES);
    for (const it of all) if (!kept.includes(it)) this.drop(it.id);
    return kept;
  }

  drop(id) {
    try {
      this.local.removeItem(KEY + id);
    } catch {
      // nothing was kept
    }
  }
}

return {packLink, unpackLink, Shelf};
})();
if (typeof module !== "undefined") module.exports = {packLink, unpackLink, Shelf};
