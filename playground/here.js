"use strict";
// What the page holds, and how it tells something.
const {here, tell, tellFault, safely} = (() => {

const here = {
  session: null, viewer: null, editor: null, shelf: null,
  name: "program.a65",       // of the source
  examples: [],
  assembled: null,           // the text that the machine runs, or null
  info: null,                // what the viewer was told of the program
  breakLines: [],            // numbers of lines with breakpoints
  warned: "",                // how many warnings the source has, in words
  hasScreen: false,
  running: null,             // the run that is under way, or null
  checking: 0,               // the timer of the next check
  isUnsaved: false,
  clicked: {},               // the line of the source that was clicked last, and the step there
  isFormChosen: false,       // whether the user has chosen text or hex for the console
  wantsInput: false,         // a run waits for input, and goes on by itself
};

function tell(words, isBad = false) {
  $("told").textContent = words;
  $("told").classList.toggle("bad", isBad);
}

// A refused call is shown as such. Where memory was refused, the machine is given up: what it holds
// may be in the middle of being made again.
function tellFault(fault) {
  if (fault.isOutOfMemory) {
    here.session.close();
    showNothing();
    tell(`OutOfMemory, status ${fault.status}: the browser refused a block of memory. `
      + "The source is as it was; assemble it again.", true);
  } else if (fault.status) {
    tell(`The engine refused it: ${fault.name}, status ${fault.status}.`, true);
  } else {
    tell("The page has a fault of its own: " + fault.message, true);
    throw fault;
  }
}

// An action of the user, whose faults are told.
const safely = act => (...words) => {
  try {
    return act(...words);
  } catch (fault) {
    here.running = null;
    showRunning();
    tellFault(fault);
  }
};

return {here, tell, tellFault, safely};
})();
if (typeof module !== "undefined") module.exports = {here, tell, tellFault, safely};
