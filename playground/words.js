"use strict";
// What the page says of a run and of a source.
const {reasonTold, endTold, countOf, warningTold, begunTold, notesTold, NO_WEBASSEMBLY} = (() => {

// What a reason of the session means, in words.
function reasonTold({why, address, status, opcode}) {
  const at = address === undefined ? "" : here.session.placeOf(address);
  const words = {
    stuck: `The program has ended: at ${at}, it jumps to itself.`,
    brk: `BRK ended the program at ${at}: it has no handler at $FFFE.`,
    unwritten: `The program ran into ${at}, which nothing wrote${here.session.cameFrom()}.`,
    waits: "The program waits for input: type a line below the console, and press Enter.",
    break: `Breakpoint at ${at}.`,
    over: "The subroutine has returned.",
    start: "",
  };
  if (why == "refused") return refusalTold(status, at, opcode);
  return words[why] ?? "";
}

function refusalTold(status, at, opcode) {
  if (status == 102) return `Stopped at ${at}: ${hex(opcode)} is no instruction of the processor.`;
  if (status == 103) return "Stopped: the console is full, with 65,536 bytes of output.";
  return "Stopped: the next step is refused, with status " + status + ".";
}

// How a page of a run says why it ended.
function endTold({why, status}) {
  const refused = {102: "this is no instruction of the processor", 103: "the console is full"};
  if (why == "refused") return refused[status] || "the next step is rejected";
  return {
    stuck: "a jump to itself", waits: "the program waits for input, and there is no more",
    brk: "BRK, which has no handler at FFFE", unwritten: "nothing was ever written here",
  }[why] || "here the page was written";
}

// How many faults or warnings there are: the last row of their text.
const countOf = text => text.trimEnd().split("\n").at(-1);

// Words on the warnings of the source, for those who see its run.
function warningTold() {
  // the one that is told already is of the reset vector
  const isTold = here.warned == "1 warning" && here.session.begun >= 0;
  return here.warned && !isTold ? ` The source has ${here.warned}: see Edit.` : "";
}

// Words on a program that was not begun at its reset vector.
function begunTold() {
  const {begun} = here.session;
  if (begun < 0) return "";
  const place = "$" + begun.toString(16).toUpperCase().padStart(4, "0");
  const isLow = begun < 256, where = isLow ? `, in the zero page, where variables are` : "";
  const advice = isLow ? ". Begin the source with *=$0600, and the program stands there." : ".";
  return ` No reset vector: begun at ${place}${where}${advice}`;
}

// Words on a run of which the oldest steps are gone.
function heldTold() {
  const {base, total, run} = here.session;
  return base > 0 ? ` The last ${grouped(run.n)} of ${grouped(total)} steps are kept.` : "";
}

// Words on a source that is too long for the list of its lines.
function longTold() {
  const isLong = here.info && !here.info.source;
  return isLong ? " The source has more than 4,000 lines: its run is shown as instructions." : "";
}

const notesTold = () => heldTold() + begunTold() + longTold() + warningTold();

const NO_WEBASSEMBLY = "This browser cannot run the engine: it has no WebAssembly, or an old one."
  + " Chromium 156, Firefox 153 and WebKit 2.50, the engine of Safari, were tried. Take a newer"
  + " browser, or ask for a page of a run, which every browser shows.";

return {reasonTold, endTold, countOf, warningTold, begunTold, notesTold, NO_WEBASSEMBLY};
})();
if (typeof module !== "undefined") {
  module.exports = {reasonTold, endTold, countOf, warningTold, begunTold, notesTold, NO_WEBASSEMBLY};
}
