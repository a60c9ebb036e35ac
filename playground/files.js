"use strict";
// Files, links, pages of a run, and the texts that the browser keeps.
const {saveSource, saveTape, loadSource, setHash, take, makeLink, takeLink, runPage,
  savePage, keep, showKept, firstText, showFirst, closeFirst, localStorageOrNull,
  sessionStorageOrNull} = (() => {

function download(bytes, type, file) {
  const address = URL.createObjectURL(new Blob([bytes], {type}));
  const link = document.createElement("a");
  link.href = address;
  link.download = file;
  link.click();
  setTimeout(() => URL.revokeObjectURL(address), 10000);
}

function saveSource() {
  download(new TextEncoder().encode(here.editor.value), "text/plain", here.name);
  here.isUnsaved = false;
  keep();
  tell(`The source is saved as ${here.name}.`);
}

// The paper tape of the image, as `mos65 asm` writes it.
function saveTape() {
  stop();
  if ((here.assembled === null || isStale()) && !assemble()) return;
  const file = here.name.replace(/\.\w+$/, "") + ".tape";
  download(new TextEncoder().encode(here.session.assembly.tape()), "text/plain", file);
  tell(`The tape is saved as ${file}.`);
}

async function loadSource() {
  const file = $("file").files[0];
  $("file").value = "";
  if (!file) return;
  if (file.size > 1 << 21) return tell("The file is too long: a source has 1 MiB at most.", true);
  const text = await file.text();
  const kept = take(text, file.name.replace(/[^\w.-]/g, "_") || "program.a65", here.hasScreen);
  tell(`${here.name} is open.${kept}`);
}

function setHash(hash) {
  if (location.hash == hash) return;
  history.replaceState(null, "", location.href.split("#")[0] + hash);
}

// Whether a text is the user's: no example, and not blank.
const isOwn = text => text.trim() != "" && !here.examples.some(it => it.text == text);

// Takes another text into the editor. What was there stays in the browser's store, if it is the
// user's own. Returns words on that, or none.
function take(text, itsName, withScreen, hash = "") {
  stop();
  const isKept = isOwn(here.editor.value) && here.editor.value != text, old = here.name;
  if (isKept) {
    keep();
    here.shelf.takeNewId();
  }
  setHash(hash);
  here.name = itsName;
  here.hasScreen = withScreen;
  here.breakLines = [];
  here.editor.value = text;
  here.isUnsaved = false;
  showNothing();
  $("name").textContent = here.name;
  safely(check)();
  if (!isKept) return "";
  const isSure = $("files").dataset.kept == "yes";
  return isSure ? ` Your text ${old} is kept: see File.` : " The browser keeps no text of yours.";
}

async function makeLink() {
  const hash = await packLink(here.editor.value, here.hasScreen);
  history.replaceState(null, "", hash);
  keep();
  $("linktext").value = location.href;
  $("copied").textContent = "";
  $("linkbox").showModal();
  $("linktext").select();
  try {
    await navigator.clipboard.writeText(location.href);
    $("copied").textContent = "It is copied.";
  } catch {
    $("copied").textContent = "Copy it from here, or from the browser's address.";
  }
}

// Takes the source of the link that the page was opened by, if it has one. Nothing of it is run.
async function takeLink() {
  try {
    const {hash} = location, found = await unpackLink(hash);
    if (!found) return false;
    tell("The source of the link." + take(found.text, "linked.a65", found.hasScreen, hash));
    return true;
  } catch (fault) {
    tell("The source in this link cannot be read: " + fault.message + ".", true);
    return false;
  }
}

// The page of the run, as `mos65 page` writes it.
function runPage() {
  const parts = {
    FACTS: "\n" + here.session.facts.map(fact => fact + "\n").join(""),
    SOURCE: "\n" + escapeText(here.session.source),
    RUN: toBase64(here.session.data()),
    END: `\nwhy ${endTold(here.session.reason)}\n`,
  };
  const template = unescaped(part("template"));
  return template.replace(/\/\*(FACTS|SOURCE|RUN|END)\*\//g, (_, mark) => parts[mark]);
}

function savePage() {
  stop();
  if (here.assembled === null) return tell("Run the program first: a page shows a run.");
  const file = here.name.replace(/\.\w+$/, "") + ".html";
  download(new TextEncoder().encode(runPage()), "text/html", file);
  tell(`The run is saved as ${file}: ${grouped(here.session.run.n)} steps.`);
}

function keep() {
  const {name, hasScreen} = here, {hash} = location;
  const it = {text: here.editor.value, name, hasScreen, at: Date.now(), hash};
  $("files").dataset.kept = here.shelf.keep(it) ? "yes" : "no";
}

function showKept() {
  const isFirst = (it, k, all) => all.findIndex(other => other.text == it.text) == k;
  const isOther = it => it.text != here.editor.value;
  const others = here.shelf.others(isOwn).filter(isOther).filter(isFirst);
  $("kept").replaceChildren(...(others.length ? [heading("Texts that are kept")] : []),
    ...others.map(it => {
      const button = document.createElement("button");
      const rows = it.text.split("\n").length, when = new Date(it.at).toLocaleString();
      button.textContent = `${it.name}, ${grouped(rows)} lines, ${when}`;
      button.onclick = () => {
        $("files").open = false;
        tell(`${it.name} is here again.` + take(it.text, it.name, it.hasScreen));
      };
      return button;
    }));
}

function heading(text) {
  const it = document.createElement("h3");
  it.textContent = text;
  return it;
}

async function firstText() {
  const mine = here.shelf.mine();
  if (mine && mine.hash == location.hash) {
    take(mine.text, mine.name, mine.hasScreen, mine.hash);
    return tell("Your text is here as you left it.");
  }
  if (mine) here.shelf.takeNewId();            // the link's text is not kept in the place of mine
  if (await takeLink()) return;
  const broken = $("told").textContent, [first] = here.examples;
  if (first) take(first.text, first.name, first.hasScreen);
  if (broken) tell(broken, true);
  else if (here.shelf.others(isOwn).length) tell("Another text is kept: see File.");
}

function showFirst() {
  const remembered = here.shelf.ask(localStorageOrNull(), "mos65.visited");
  $("first").hidden = !!remembered;
  $("understood").onclick = closeFirst;
}

function closeFirst() {
  if ($("first").hidden) return;
  $("first").hidden = true;
  here.shelf.put(localStorageOrNull(), "mos65.visited", "yes");
}

function localStorageOrNull() {
  try {
    return localStorage;
  } catch {
    return null;
  }
}

function sessionStorageOrNull() {
  try {
    return sessionStorage;
  } catch {
    return null;
  }
}

return {saveSource, saveTape, loadSource, setHash, take, makeLink, takeLink, runPage, savePage,
  keep, showKept, firstText, showFirst, closeFirst, localStorageOrNull, sessionStorageOrNull};
})();
if (typeof module !== "undefined") {
  module.exports = {saveSource, saveTape, loadSource, setHash, take, makeLink, takeLink,
    runPage, savePage, keep, showKept, firstText, showFirst, closeFirst, localStorageOrNull,
    sessionStorageOrNull};
}
