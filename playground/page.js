"use strict";
// The playground's page: its buttons and keys. What a program does is told by the engine, and shown
// by the viewer of a page of a run.
const playground = (() => {

const BUTTONS = [
  ["edit", "Edit", "F4", edit], ["assemble", "Assemble", "F2", assemble], "",
  ["go", "Run", "Ctrl Enter", runOrStop], ["on", "Step", "F8", stepOn],
  ["over", "Over", "F9", stepOver], "",
  ["undo", "Back", "Shift F8", back], ["wrote", "Last write", "Shift F9", toLastWrite],
  ["zero", "Start", "Home", toStart], ["again", "Restart", "z", restart], "",
  ["see", "Screen", "k", toggleScreen],
];

const FUNCTION_KEYS = {
  "F2": assemble, "F4": () => document.activeElement == here.editor.text ? leave() : edit(),
  "F8": stepOn, "Shift F8": back, "F9": stepOver, "Shift F9": toLastWrite, "Ctrl Enter": runOrStop,
};

const LETTERS = [
  ["e", "edit the source", edit], ["z", "restart: the machine as after the reset", restart],
  ["j", "type a line for the program", () => $("line").focus()],
  ["d", "breakpoint at the line that comes next", breakHere],
  ["k", "the screen of 32 by 32, on or off", toggleScreen],
  ["o", "open a source", () => $("file").click()], ["f", "save the source", saveSource],
  ["l", "make a link with the source", makeLink], ["h", "save the run as a page", savePage],
  ["p", "save the paper tape", saveTape],
];

const OUTSIDE = new Set("zoflhp");                   // the letters with an effect outside the run

const COMMANDS = new Set([...LETTERS.map(([key]) => key), ..." bBnNurvVwWaxyscCiIP+-0gmt/?"]);

// Out of the editor, so that keys without Ctrl work.
function leave() {
  if (here.assembled !== null && !isStale()) showMode("run");
  here.editor.text.blur();
  $("rows").focus();
}

function breakHere() {
  if (document.body.dataset.mode == "edit") return toggleBreak(here.editor.lineHere());
  const number = here.session.lineAt(here.session.run.PC[here.viewer.step]);
  if (number) toggleBreak(number);
}

function pressKey(event) {
  const {key, ctrlKey, metaKey, altKey, shiftKey} = event;
  if (altKey || metaKey || document.querySelector("dialog[open]")) return;
  const named = (ctrlKey ? "Ctrl " : "") + (shiftKey ? "Shift " : "") + key;
  if (key == "Escape" && here.running) stop();
  else if (key == "Escape" && event.target == here.editor.text) leave();
  else if (key == "Escape") $("files").open = false;
  else if (named == "Ctrl b" && event.target == here.editor.text) breakHere();
  else if (FUNCTION_KEYS[named]) safely(FUNCTION_KEYS[named])();
  else return;
  event.preventDefault();
}

// Keys on the lines of the run's source. Who types there wants to edit: Enter leads to the editor
// at this line, and so does a character that is no command, or is one with an effect outside the
// run. The character is typed at the end of the line.
function lineKey(event) {
  const {key, target, ctrlKey, metaKey, altKey} = event;
  if (!target.closest?.("#rows") || here.running || here.assembled === null) return;
  if (ctrlKey || metaKey || altKey || !(key == "Enter" || key.length == 1)) return;
  if (key != "Enter" && COMMANDS.has(key) && !OUTSIDE.has(key)) return;
  event.stopPropagation();
  if (key == "Enter") event.preventDefault();
  const number = chosenLine(target) || 1;
  edit(number);
  const line = here.editor.value.split("\n")[number - 1] || "";
  if (key != "Enter") here.editor.goTo(number, line.length + 1);
  tell(`This is the source, at line ${number}. Run or Step shows the run again.`);
}

// The row that comes next alone can have the focus: another one loses it, and keys go nowhere.
function lineWasClicked(number) {
  here.clicked = {number, step: here.viewer.step};
  if (document.body.dataset.mode == "run") $("rows").focus({preventScroll: true});
}

// The number of the line of the source that has the focus, or was clicked last, or comes next.
function chosenLine(target) {
  const row = target.closest("tr"), isHere = here.clicked.step == here.viewer.step;
  const number = row ? parseInt(row.querySelector(".n").textContent) : 0;
  if (here.info.source && number) return number;
  const {session} = here;
  return isHere && here.clicked.number || session.lineAt(session.run.PC[here.viewer.step]);
}

function makeTools() {
  for (const it of BUTTONS) {
    const box = document.createElement(it ? "button" : "span");
    if (it) {
      const [id, text, key, act] = it, mark = document.createElement("kbd");
      mark.textContent = key;
      mark.setAttribute("aria-hidden", "true");
      box.id = id;
      box.append(text, mark);
      box.title = `${text} (${key})`;
      box.onclick = () => safely(act)();
    } else box.className = "gap";
    $("tools").append(box);
  }
  $("go").className = "main";
  const sights = [["Screen", "screen"], ["Memory", "memory"]];
  for (const [text, value] of sights) addButton($("sights"), text, value, showSight);
  // a phone has no keys
  const pad = {a: "◂ left", w: "▴ up", s: "▾ down", d: "▸ right"};
  for (const [key, text] of Object.entries(pad)) {
    addButton($("pad"), text, key, safely(giveKey));
  }
}

// Puts the page's own parts where they stand among the viewer's panels.
function placeParts() {
  $("calls").previousElementSibling.id = "calledhead";
  $("rows").before($("editor"));
  $("out").after($("live"), $("typing"));
  $("memory").prepend($("sights"), $("picture"));
  document.body.append(document.querySelector("footer"));
}

function makeEditor() {
  const elements = {text: $("text"), numbers: $("numbers"), marks: $("marks"), list: $("faults")};
  let old = "";
  here.editor = new Editor(elements, {
    changed() {
      shiftBreaks(old, here.editor.value);
      old = here.editor.value;
      here.editor.show(here.editor.faults, here.breakLines);
      textChanged();
    },
    replaced() {
      old = here.editor.value;
    },
    numberClicked: safely(toggleBreak),
  });
}

function makeViewer() {
  const hooks = {
    moved() {
      tell("");
      if (here.hasScreen && here.viewer) paintScreen(here.viewer.memory);
    },
    lineClicked(address, number, event) {
      queueMicrotask(() => lineWasClicked(number));          // after the click has moved
      if (event.detail == 2 && number) edit(number);
      else if (event.target.classList.contains("n") && number) safely(toggleBreak)(number);
      else return false;
      return true;
    },
    atEnd(how) {
      if (here.running || here.assembled === null) return;
      safely(how == "over" ? stepOver : stepOn)();
    },
  };
  here.viewer = openViewer({info: {title: here.name}, run: new Run()}, hooks);
  for (const [key, words, act] of [...LETTERS].reverse()) {
    here.viewer.addKey(key, words, safely(act));
  }
  const others = [["Ctrl Enter", "run, or stop"], ["Escape", "stop; leave the editor"],
    ["F2", "assemble"], ["F4", "edit, or back to the run"], ["F8", "step"],
    ["Shift F8", "back one step"], ["F9", "over a subroutine"],
    ["Shift F9", "back to the last write of the chosen byte"],
    ["Ctrl b", "in the editor: breakpoint at this line"],
    ["Tab (editor)", "blanks to the next column of 8; after Escape it leaves the editor"],
    ["Enter (line)", "to the editor at this line, as a double click or typed text"]];
  for (const [key, words] of others) here.viewer.addKey(key, words, () => {});
}

function makeChoices() {
  here.examples = readExamples(unescaped(part("examples")));
  here.examples.forEach((it, k) => $("example").add(new Option(it.title, k)));
  $("example").onchange = () => {
    const it = here.examples[$("example").value];
    $("example").selectedIndex = 0;
    if (!it) return;
    const kept = take(it.text, it.name, it.hasScreen);
    tell(`${it.name}: press Run or Step.${kept}`);
  };
}

function listen() {
  addEventListener("keydown", pressKey);
  addEventListener("hashchange", safely(takeLink));
  addEventListener("pagehide", () => here.editor.value && keep());
  addEventListener("storage", event => {
    if (here.shelf.isMine(event.key)) {
      here.shelf.takeNewId();
      keep();
    }
  });
  addEventListener("beforeunload", event => {
    if (here.isUnsaved && $("files").dataset.kept == "no") event.preventDefault();
  });
  $("form").addEventListener("click", event => here.isFormChosen ||= event.isTrusted);
  $("typing").onsubmit = safely(enterLine);
  // before the keys of the viewer
  addEventListener("keydown", safely(screenKey), true);
  addEventListener("keydown", safely(lineKey), true);
  $("files").ontoggle = () => $("files").open && showKept();
  addEventListener("click", event => {
    if (!$("files").contains(event.target)) $("files").open = false;
  });
  const menu = {
    load: () => $("file").click(), save: saveSource, link: makeLink, print: savePage,
    tape: saveTape,
  };
  for (const [id, act] of Object.entries(menu)) {
    $(id).onclick = () => {
      $("files").open = false;
      safely(act)();
    };
  }
  $("file").onchange = safely(loadSource);
  $("about").onclick = () => $("trust").showModal();
}

function showAbout() {
  const said = Object.fromEntries(unescaped(part("built")).trim().split("\n").map(row => {
    const [word, ...rest] = row.split(" ");
    return [word, rest.join(" ")];
  }));
  const {version = "", commit = "", crates = "", module: linked = "", lowered = ""} = said;
  $("version").textContent = `mos65 ${version}, commit ${commit.slice(0, 8)}`;
  $("sums").textContent = `Commit ${commit}. Module of the crates of commit ${crates}: SHA-256 `
    + `${linked}. As this page has it, with 32-bit addresses: ${lowered}`;
}

// The list of keys opens at its top: its button at the end has the focus first, and is scrolled to.
function openHelpAtTop() {
  const help = $("help");
  help.tabIndex = -1;
  new MutationObserver(() => {
    if (!help.open) return;
    help.focus({preventScroll: true});
    help.scrollTop = 0;
  }).observe(help, {attributeFilter: ["open"]});
}

function tellNoEngine(fault) {
  tell(fault.isOld ? NO_WEBASSEMBLY : "The engine cannot be started: " + fault.message, true);
  for (const button of $("tools").querySelectorAll("button")) button.disabled = true;
}

const randomBytes = count => [...crypto.getRandomValues(new Uint8Array(count))];
const anyByte = () => randomBytes(1)[0];

const newId = () => randomBytes(8).map(byte => hex(byte)).join("");

async function begin() {
  here.shelf = new Shelf(localStorageOrNull(), sessionStorageOrNull(), newId);
  makeTools();
  placeParts();
  makeEditor();
  makeViewer();
  makeChoices();
  listen();
  showAbout();
  showFirst();
  openHelpAtTop();
  await firstText();
  try {
    const engine = await openEngine(moduleBytes());
    here.session = new Session(engine, Run, {ops: part("ops").trim(), random: anyByte});
    here.session.hasRandom = here.hasScreen;
    const told = $("told").textContent, isBad = $("told").classList.contains("bad");
    safely(check)();
    if (told) tell(told, isBad);
  } catch (fault) {
    tellNoEngine(fault);
  }
}

const ready = begin();
return {
  ready, runPage,
  get session() { return here.session; },
  get viewer() { return here.viewer; },
  get editor() { return here.editor; },
  get isRunning() { return !!here.running; },
};
})();
