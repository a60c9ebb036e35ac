"use strict";
// The page of a run: reads its parts, and shows them. Its address ends with what is shown, as
// `#40` or `#40&byte=0010&view=labels&page=02`.
const viewer = (() => {

const part = id => document.getElementById(id).textContent.replace(/^\n/, "");

function bytesOf(text) {
  if (Uint8Array.fromBase64) return Uint8Array.fromBase64(text);
  return Uint8Array.from(atob(text.replace(/\s/g, "")), c => c.charCodeAt());
}

// how the run ended is told behind it
const info = readFacts((part("facts") + part("end")).split("\n"), part("source"));
const run = decodeRun(bytesOf(part("run")), info.loaded);
let made = null, noting = 0;

// A path shows its file's name alone: the folders are those of who made the page.
info.title = info.title.replace(/^\S*[/\\](?=\S+$)/, "");

function addressOf() {
  const {step, chosen, view, page, sight} = made;
  const byte = chosen < 0 ? "" : "&byte=" + hex(chosen, 4);
  const list = view == (info.source ? "source" : "code") ? "" : "&view=" + view;
  return `#${step}${byte}${list}&page=${sight == "page" ? hex(page) : sight}`;
}

function drawn() {
  clearTimeout(noting);
  noting = setTimeout(() => history.replaceState(null, "", addressOf()), 300);
}

const numberIn = text => /^[\da-f]{1,4}$/i.test(text) ? parseInt(text, 16) : -1;

// Shows what an address says; what it leaves out stays.
function goTo(address) {
  const [step, ...words] = (address.split("#")[1] || "").split("&");
  const {byte, view, page} = Object.fromEntries(words.map(word => word.split("=")));
  const buttons = [...document.querySelectorAll("#views button")].map(it => it.value);
  if (buttons.includes(view)) made.showView(view);
  if (numberIn(byte) >= 0) made.choose(numberIn(byte));
  if (page == "map" || page == "screen") made.showPage(page);
  else if (numberIn(page) >= 0) made.showPage(numberIn(page) & 255);
  if (step) made.go(parseInt(step) || 0, true);
}

// Three sentences, until they are closed once.
function showHint() {
  const hint = document.getElementById("hint"), key = "mos65.hint";
  const store = act => {
    try {
      return act(localStorage);
    } catch {
      return null;                          // a page in a frame may have none
    }
  };
  hint.hidden = store(it => it.getItem(key)) != null;
  hint.querySelector("button").onclick = () => {
    hint.hidden = true;
    store(it => it.setItem(key, "closed"));
    made.draw();
  };
}

document.title = info.title;
showHint();
made = openViewer({info, run, step: info.at}, {drawn});
goTo(location.href);
// not `location`: it may be older by now
addEventListener("hashchange", event => goTo(event.newURL));
return made;
})();
