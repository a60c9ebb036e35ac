"use strict";
// Steps and runs, forwards and back, and the input of a program.
const {restart, stepOn, stepOver, back, toStart, toLastWrite, runOrStop, stop,
  enterLine, isFree, isOver, showRun, showRunning} = (() => {

const SLICE = 14;          // milliseconds of a run before the page answers
const STEPS = 50000;       // steps of one call, at most
const FIRST = 8;           // bytes by which output is taken for text

function restart() {
  stop();
  if (isStale()) return assemble();
  here.session.restart();
  here.info.why = "";
  here.wantsInput = false;
  here.viewer.show({info: here.info, run: here.session.run, step: 0});
  showMode("run");
  tell("The machine is as it was after the reset." + begunTold());
}

// After the run has more or fewer steps: shows its live end, or step k.
function showRun(k = here.session.run.n) {
  here.info.why = isOver() ? endTold(here.session.reason) : "";
  if (here.viewer.run == here.session.run) here.viewer.changed(k);
  else here.viewer.show({info: here.info, run: here.session.run, step: k});
  showAsText();
  showMode("run");
}

// The viewer shows a console with many odd bytes in hex. Output that began as text stays text here,
// until the user has said.
function showAsText() {
  const isHex = !$("form").hidden && $("form").textContent == "as text";
  if (!isHex || here.isFormChosen || !here.session.run.out.length) return;
  const isText = byte => byte == 10 || byte > 31 && byte < 127;
  if (here.session.run.out.slice(0, FIRST).every(isText)) $("form").click();
}

const isOver = () => ["stuck", "brk", "unwritten", "refused"].includes(here.session.reason.why);

const isAtEnd = () => here.viewer.step == here.session.run.n;

function stepOn() {
  stop();
  const isNew = isStale();
  if (!isReady()) return;
  showMode("run");
  if (!isAtEnd()) return here.viewer.go(here.viewer.step + 1);
  const reason = here.session.step();
  showRun();
  tell(reasonTold(reason) + (isNew ? " The next instruction is marked." + notesTold() : ""));
}

function stepOver() {
  stop();
  if (!isReady()) return;
  showMode("run");
  if (!isAtEnd()) return press("moves", 5);
  here.session.start(true);
  if (here.session.over.isCall) go();
  else stepOn();
}

const press = (box, index) => $(box).children[index].click();

function back() {
  stop();
  if (here.assembled === null) return;
  showMode("run");
  if (here.viewer.step > 0) return here.viewer.go(here.viewer.step - 1);
  if (here.session.base > 0) tell("No earlier step is kept: 65,536 can be undone.");
  else tell("This is the start of the program.");
}

function toStart() {
  stop();
  if (here.assembled === null) return;
  showMode("run");
  here.viewer.go(0, true);
  if (here.session.base > 0) tell("The oldest step that is kept. Restart leads to the reset.");
}

// Back to the last write of the chosen byte.
function toLastWrite() {
  stop();
  if (here.assembled === null) return;
  showMode("run");
  if (here.viewer.chosen < 0) {
    return tell("Choose a byte first: click it in memory, or under Names.");
  }
  const from = here.viewer.step;
  $("cell").querySelector('[data-w="1"][data-by="-1"]').click();
  if (here.viewer.step == from) tell("No earlier write of this byte is kept.");
  else tell("The last step has written the chosen byte.");
}

function runOrStop() {
  if (here.running) return stop();
  if (!isReady()) return;
  showMode("run");
  const found = breakAhead();
  if (found >= 0) {
    here.viewer.go(found, true);
    return tell(reasonTold({why: "break", address: here.session.run.PC[found]}));
  }
  here.session.start(false);
  go();
}

// The next step that stands at a breakpoint, of those that were made already; or -1.
function breakAhead() {
  for (let k = here.viewer.step + 1; k <= here.session.run.n; k++) {
    if (here.session.breaks.has(here.session.run.PC[k])) return k;
  }
  return -1;
}

function go() {
  if (isOver()) {
    here.viewer.go(here.session.run.n);
    return tell(reasonTold(here.session.reason));
  }
  const length = here.session.machine.outputLength();
  here.running = {began: performance.now(), from: here.session.total, chunk: 2000, output: length};
  here.wantsInput = false;
  $("live").textContent = $("past").textContent + $("later").textContent;
  showRunning();
  if (here.hasScreen) showInTab("memory", $("screen"));
  tell("Running ..");
  here.running.timer = setTimeout(safely(slice), 0);
}

// A slice of a run. Its calls are as long as makes them take some milliseconds.
function slice() {
  const until = performance.now() + SLICE;
  let now = performance.now(), reason = null;
  while (!reason && now < until) {
    const began = now;
    reason = here.session.slice(here.running.chunk);
    now = performance.now();
    if (now - began < 3) here.running.chunk = Math.min(STEPS, here.running.chunk * 2);
    else if (now - began > 8) here.running.chunk = Math.max(500, here.running.chunk >> 1);
  }
  if (reason) return ended(reason);
  showLive();
  here.running.timer = setTimeout(safely(slice), 0);
}

// What is shown while a program runs.
function showLive() {
  const {session, running} = here, steps = session.total - running.from;
  const seconds = (performance.now() - running.began) / 1000;
  const {cycles} = session.machine.registers();
  const speed = (steps / seconds / 1e6).toFixed(1);
  if (seconds > .2) tell(`Running: ${grouped(steps)} steps, ${speed} million a second.`);
  $("cycles").textContent = `${grouped(cycles)} cycles`;
  const fresh = here.session.machine.output(here.running.output);
  if (fresh.length) {
    $("live").append(printable(fresh));
    $("live").scrollTop = $("live").scrollHeight;
    here.running.output += fresh.length;
  }
  if (here.hasScreen) paintScreen(here.session.machine.read(0, 0x600));
}

const printable = bytes => Array.from(bytes, b => b == 10 ? "\n" : b < 32 || b > 126 ? "·"
  : String.fromCharCode(b)).join("");

function stop() {
  if (!here.running) return;
  ended({why: "stopped"});
}

function ended(reason) {
  const steps = here.session.total - here.running.from;
  clearTimeout(here.running.timer);
  here.running = null;
  showRunning();
  here.session.settle();
  showRun();
  here.wantsInput = reason.why == "waits";
  $("typing").classList.toggle("asked", here.wantsInput);
  tell((reasonTold(reason) || `Stopped after ${grouped(steps)} steps.`) + notesTold());
  if (here.wantsInput) showInTab("machine", $("line"));
}

// Gives a part of the page the focus. On a phone, its panel is shown first.
function showInTab(tab, element) {
  if ($("tabs").offsetHeight) $("tabs").querySelector(`[value=${tab}]`).click();
  element.focus({preventScroll: !$("tabs").offsetHeight});
}

function showRunning() {
  const isRunning = !!here.running;
  document.body.toggleAttribute("data-running", isRunning);
  $("go").firstChild.data = isRunning ? "Stop" : "Run";
  $("go").setAttribute("aria-pressed", String(isRunning));
  $("live").hidden = !isRunning;
  $("typing").classList.remove("asked");
}

function enterLine(event) {
  event.preventDefault();
  const text = $("line").value + "\n";
  if (here.assembled === null) return tell("Run the program first.");
  const bytes = new TextEncoder().encode(text);
  if (here.running) {
    for (const byte of bytes) here.session.hand({given: [byte]});
  } else {
    if (!isFree()) return;
    here.session.type([...bytes], here.viewer.step);
    showRun();
    tell(`${bytes.length} bytes were handed in.`);
    if (here.wantsInput) runOn();
  }
  $("line").value = "";
}

function runOn() {
  here.session.start(false);
  go();
}

// Whether the machine can be changed at the step that is shown.
function isFree() {
  if (here.session.canCut(here.viewer.step)) return true;
  tell("Too far back to change something: the machine keeps 65,536 steps.", true);
  return false;
}

return {restart, stepOn, stepOver, back, toStart, toLastWrite, runOrStop, stop, enterLine,
  isFree, isOver, showRun, showRunning};
})();
if (typeof module !== "undefined") {
  module.exports = {restart, stepOn, stepOver, back, toStart, toLastWrite, runOrStop, stop,
    enterLine, isFree, isOver, showRun, showRunning};
}
