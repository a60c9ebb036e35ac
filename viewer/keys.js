"use strict";
// The buttons and keys that move, and what each does.
const {MOVES, playing, play, toLine, changeLight, writeHelp, addKey, pressKey} = (() => {

const playing = {frame: 0};               // the frame that is asked for, or 0

function play() {
  if (playing.frame) {
    cancelAnimationFrame(playing.frame);
    playing.frame = 0;
  } else {
    if (now.cur == now.run.n) go(0);
    const began = performance.now(), from = now.cur, pace = Math.max(6, (time.to - time.from) / 40);
    const tick = at => {
      const k = from + Math.floor((at - began) / 1000 * pace);
      if (k > now.cur) go(k);
      playing.frame = now.cur < now.run.n ? requestAnimationFrame(tick) : 0;
      if (!playing.frame) draw();
    };
    playing.frame = requestAnimationFrame(tick);
  }
  draw();
}

function select(id) {
  $(id).focus();
  $(id).select();
}

const toLine = by => now.info.lines.length && jump(by < 0 ? lineBack() : lineOn());
const toCall = by => jump(by < 0 ? now.run.callAt(now.cur).start - 1 : now.run.callAt(now.cur).end);
const toWrite = by => now.byte >= 0 && toUse(now.byte, true, by);

const MOVES = [
  ["Start of the run (Home)", "M3 4h2v12H3zM19 4v12l-9-6zM11 4v12L5 10z", () => jump(0), "Home"],
  ["Back over a subroutine (PageUp or B)", "M10 4v12l-8-6zM18 4v12l-8-6z",
   () => jump(beforeOver()), "PageUp", "B"],
  ["Back one step (Left or b)", "M14 3v14L4 10z", () => go(now.cur - 1), "ArrowLeft", "b"],
  ["Play or pause (Space)", "M3 4l8 6-8 6zM13 4h2v12h-2zM17 4h2v12h-2z", play, " "],
  ["One step on (Right or n)", "M6 3v14l10-7z", () => goOn("step"), "ArrowRight", "n"],
  ["On over a subroutine (PageDown or N)", "M2 4v12l8-6zM10 4v12l8-6z",
   () => goOn("over"), "PageDown", "N"],
  ["End of the run (End)", "M15 4h2v12h-2zM1 4v12l8-6zM9 4v12l6-6z", () => jump(now.run.n), "End"],
];
const KEYS = [
  ["Shift ArrowRight", "on to where another line begins, over calls", () => toLine(1)],
  ["Shift ArrowLeft", "back to where a line begins", () => toLine(-1)],
  ["u", "back to the call of this subroutine", () => toCall(-1)],
  ["r", "on to where this subroutine has returned", () => toCall(1)],
  ["v", "next visit of this line, or of the one that was clicked", () => toVisit(chosenLine(), 1)],
  ["V", "the visit before", () => toVisit(chosenLine(), -1)],
  ["w", "back to the write of the chosen byte before this moment", () => toWrite(-1)],
  ["W", "on to its next write", () => toWrite(1)],
  ["L", "the chosen byte into the list of names, or out of it", keepByte],
  ["M", "copy this moment as text: registers, line, page of memory", copyMoment],
  ["a", "back to the step that set A", () => toSet("A")],
  ["x", "the same for X", () => toSet("X")],
  ["y", "for Y", () => toSet("Y")],
  ["s", "for S", () => toSet("S")],
  ["c", "next byte put out", () => toNear(now.run.outAt, 1)],
  ["C", "the byte put out before", () => toNear(now.run.outAt, -1)],
  ["k", "next byte of input taken", () => toNear(now.run.takenAt, 1)],
  ["K", "the byte taken before", () => toNear(now.run.takenAt, -1)],
  ["i", "next interrupt", () => toNear(now.run.entries, 1)],
  ["I", "the interrupt before", () => toNear(now.run.entries, -1)],
  ["P", "back to the jump, the call or the branch before this moment", toJump],
  [".", "next note", () => toNote(1)],
  [",", "the note before", () => toNote(-1)],
  ["Backspace", "where you were before the last jump", goBack],
  ["+", "zoom the time picture in", () => zoom(.5)],
  ["-", "zoom out", () => zoom(2)],
  ["0", "the whole run", () => zoom(Infinity)],
  ["g", "type a step", () => select("step")],
  ["/", "find: A=0, count>=$10, =45 (the chosen byte), a name, a text", () => select("find")],
  ["m", "the map of all memory", () => showPage("map")],
  ["t", "light or dark", changeLight],
  ["?", "this list", () => $("help").showModal()],
];
const ownKeys = [];

function changeLight() {
  const isDark = matchMedia("(prefers-color-scheme:dark)").matches;
  const style = document.documentElement.style;
  const light = style.colorScheme || (isDark ? "dark" : "light");
  style.colorScheme = light == "dark" ? "light" : "dark";
  drawAnew();
}

// What made the page, where it says so.
function madeBy() {
  const name = document.querySelector("meta[name=generator]")?.getAttribute("content");
  return name ? `<p>Made by ${name}: assembler, emulator and debugger for the 6502.</p>` : "";
}

function writeHelp() {
  const named = key => key == " " ? "Space" : key.replace("Arrow", "");
  const row = (keys, words) => {
    const marks = keys.map(key => `<kbd>${named(key)}</kbd>`).join(" ");
    return `<tr><td>${marks}<td>${words}`;
  };
  const moves = MOVES.map(([words, , , ...keys]) => row(keys, words.replace(/ \(.*/, "")));
  const others = [...ownKeys, ...KEYS].map(([key, words]) => row([key], words));
  $("help").innerHTML = "<h2>Keys</h2><p><b>First</b> <kbd>Right</kbd> and <kbd>Left</kbd> step;" +
    " <kbd>Home</kbd> and <kbd>End</kbd> go to the ends; <kbd>g</kbd> goes to a step.</p>" +
    `<table>${[...moves, ...others].join("")}</table>` +
    "<p>Click a line: its next visit, with Shift the one before. Click a byte: who changed it;" +
    " again: go there. Click a register or a flag: the step that set it; PC: the jump before." +
    " Click the console: the step that put the byte out. Drag in the picture of time; the wheel" +
    " zooms. Arrows move in lines, bytes, the map, the screen and the console.</p>" + madeBy() +
    '<form method="dialog"><button autofocus>Close</button></form>';
}

function addKey(key, words, act) {
  ownKeys.push([key, words, act]);
  writeHelp();
}

function pressKey(event) {
  const {target} = event, isShifted = event.shiftKey && event.key.startsWith("Arrow");
  const key = (isShifted ? "Shift " : "") + event.key;
  const isTyped = target.closest?.("textarea,select,input:not([type=range])");
  if (event.ctrlKey || event.metaKey || event.altKey || $("help").open || isTyped) return;
  if (key == " " && target.tagName == "BUTTON") return;
  const own = [...ownKeys, ...KEYS].find(it => it[0] == key);
  const move = MOVES.find(it => it.slice(3).includes(key));
  if (!own && !move) return;
  event.preventDefault();
  if (ownKeys.includes(own) || !move) own[2]();
  else move[2]();
}

return {MOVES, playing, play, toLine, changeLight, writeHelp, addKey, pressKey};
})();
if (typeof module !== "undefined") {
  module.exports = {MOVES, playing, play, toLine, changeLight, writeHelp, addKey, pressKey};
}
