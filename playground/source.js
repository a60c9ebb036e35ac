"use strict";
// The source: checked while it is typed, assembled, with breakpoints at its lines.
const {isStale, textChanged, showStale, check, shiftBreaks, toggleBreak, setBreaks,
  showMode, edit, assemble, showProgram, showNothing, isReady} = (() => {

const PAUSE = 300;         // milliseconds without typing before the source is checked
const BREAKS = 256;        // breakpoints, at most
const LONG = 4000;         // lines of a source that the viewer shows, at most

const isStale = () => here.assembled !== here.editor.value;

function textChanged() {
  here.isUnsaved = true;
  setHash("");               // a link there has another text
  clearTimeout(here.checking);
  here.checking = setTimeout(safely(check), PAUSE);
  showStale();
}

function showStale() {
  document.body.classList.toggle("blank", here.assembled === null);
  document.body.classList.toggle("stale", here.assembled !== null && isStale());
}

// Shows the faults of the source, or its warnings where it has none. Returns the text of its
// faults.
function check() {
  clearTimeout(here.checking);
  keep();
  if (!here.session) return "";
  const faults = here.session.faults("source", here.editor.value);
  const warnings = faults ? "" : here.session.warnings("source", here.editor.value);
  here.editor.show(readFaults(faults || warnings), here.breakLines);
  here.warned = countOf(warnings);
  if (faults) tell(`${countOf(faults)}: see below the source.`);
  else if (here.warned) tell(`${here.warned}: see below the source. It can be run as it is.`);
  else if (isStale()) tell("No faults. Run or Step assembles the source.");
  return faults;
}

// Moves breakpoints with their lines where the text is changed. Those of lines that were replaced
// are dropped.
function shiftBreaks(old, text) {
  if (!here.breakLines.length) return;
  const most = Math.min(old.length, text.length);
  let front = 0, end = 0;
  while (front < most && old[front] == text[front]) front++;
  while (end < most - front && old.at(-1 - end) == text.at(-1 - end)) end++;
  const lineAt = (all, at) => all.slice(0, at).split("\n").length;
  const first = lineAt(old, front), last = lineAt(old, old.length - end);
  const by = lineAt(text, text.length - end) - last;
  here.breakLines = here.breakLines.filter(line => line <= first || line > last)
    .map(line => line > first ? line + by : line);
}

// The address of the instruction of a line, or -1.
function addressOf(number) {
  const line = here.session.lines.find(it => it.number == number);
  return line && line.isInstruction ? line.address : -1;
}

function toggleBreak(number) {
  const isSet = here.breakLines.includes(number);
  if (!isSet && here.breakLines.length == BREAKS) return tell("256 breakpoints are set already.");
  const others = here.breakLines.filter(it => it != number);
  here.breakLines = isSet ? others : [...others, number];
  setBreaks();
  tell(`Breakpoint ${isSet ? "cleared" : "set"} at line ${number}.`);
}

// Sets the machine's breakpoints to those of the lines that have an instruction.
function setBreaks() {
  if (here.assembled !== null) {
    const wanted = new Set(here.breakLines.map(addressOf).filter(address => address >= 0));
    for (const address of [...here.session.breaks]) {
      if (!wanted.has(address)) here.session.toggleBreak(address);
    }
    for (const address of wanted) {
      if (!here.session.breaks.has(address)) here.session.toggleBreak(address);
    }
    here.viewer.mark(wanted);
  }
  here.editor.show(here.editor.faults, here.breakLines);
}

function showMode(mode) {
  document.body.dataset.mode = mode;
  $("edit").setAttribute("aria-pressed", String(mode == "edit"));
  if (mode == "run") here.viewer.draw();
}

function edit(line) {
  stop();
  document.body.dataset.tab = "code";
  showMode("edit");
  if (typeof line == "number") here.editor.goTo(line);
  else here.editor.text.focus();
}

// Assembles the source, and stands before the first instruction. Returns whether that was done.
function assemble() {
  stop();
  if (!here.session) return false;
  const text = check();
  if (text) {
    showMode("edit");
    const {line, column, words} = here.editor.faults[0];
    here.editor.goTo(line, column);
    tell(`${countOf(text)}. Line ${line}: ${words}`, true);
    return false;
  }
  if (!here.editor.value.trim()) {
    tell("The source is empty: type a program, or choose an example.");
    return false;
  }
  here.session.breaks.clear();
  here.session.hasRandom = here.hasScreen;
  here.session.open(here.name, here.editor.value);
  here.assembled = here.editor.value;
  showProgram();
  setBreaks();
  showMode("run");
  closeFirst();
  const count = here.session.loaded.reduce((sum, [, bytes]) => sum + bytes, 0);
  tell(`Assembled: ${grouped(count)} bytes. The next instruction is marked.${notesTold()}`);
  return true;
}

function showProgram() {
  here.info = readFacts(here.session.facts);
  here.isFormChosen = false;
  // a longer one makes each step slow: then the viewer shows what ran as instructions
  const {lines} = here.session;
  if (lines.length <= LONG) here.info.source = lines.map(line => line.text);
  here.wantsInput = false;
  here.viewer.show({info: here.info, run: here.session.run, step: 0});
  showStale();
  showScreen();
}

// Shows the editor alone, without a machine.
function showNothing() {
  here.assembled = null;
  here.info = {title: here.name};
  here.viewer.show({info: here.info, run: new Run()});
  showStale();
  showScreen();
  showMode("edit");
}

// Assembles first where the text is another one. Returns whether a machine is there to go on.
function isReady() {
  return !isStale() || assemble();
}

return {isStale, textChanged, showStale, check, shiftBreaks, toggleBreak, setBreaks, showMode,
  edit, assemble, showProgram, showNothing, isReady};
})();
if (typeof module !== "undefined") {
  module.exports = {isStale, textChanged, showStale, check, shiftBreaks, toggleBreak, setBreaks,
    showMode, edit, assemble, showProgram, showNothing, isReady};
}
