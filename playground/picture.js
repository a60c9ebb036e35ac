"use strict";
// The screen beside memory, and the keys that go to a program with one.
const {toggleScreen, showScreen, showSight, paintScreen, screenKey, giveKey} = (() => {

const KEY = 0xFF;          // where the screen's programs find a key

function toggleScreen() {
  here.hasScreen = !here.hasScreen;
  if (here.session) here.session.hasRandom = here.hasScreen;
  keep();
  showScreen();
  tell(here.hasScreen ? "The screen is on: $0200 to $05FF, the key at $FF, any byte at $FE."
    : "The screen is off.");
}

function showScreen() {
  $("see").setAttribute("aria-pressed", String(here.hasScreen));
  $("picture").hidden = $("sights").hidden = !here.hasScreen;
  showSight(here.hasScreen ? "screen" : "memory");
}

function showSight(sight) {
  document.body.dataset.sight = sight;
  for (const button of $("sights").children) {
    button.setAttribute("aria-pressed", String(button.value == sight));
  }
  if (here.hasScreen && here.viewer) paintScreen(here.viewer.memory);
}

function paintScreen(memory) {
  drawScreen($("screen").getContext("2d"), memory);
  $("screen").setAttribute("aria-label", "Screen of 32 by 32 places, "
    + countLit(memory) + " of them not black");
}

// A key while the screen has the focus, or while a program with a screen runs: then it goes to the
// program wherever the focus is, but for a field of text and the keys of a button.
function screenKey(event) {
  const {key, target, ctrlKey, metaKey, altKey} = event;
  const isHere = target == $("screen");
  if (!isHere && !(here.running && here.hasScreen)) return;
  if (keyByte(key) < 0 || ctrlKey || metaKey || altKey || here.assembled === null) return;
  if (target.closest?.("textarea,select,input:not([type=range]),dialog")) return;
  if (target.tagName == "BUTTON" && (key == "Enter" || key == " ")) return;
  event.preventDefault();
  event.stopPropagation();
  if (here.running || !isOver()) giveKey(key);       // a program that has ended takes no key
}

// Puts a key where programs find it: at $FF.
function giveKey(key) {
  const bytes = [keyByte(key)];
  if (here.running) return here.session.patch(KEY, bytes);
  if (here.assembled === null || !isFree()) return;
  here.session.cut(here.viewer.step);
  here.session.patch(KEY, bytes);
  here.session.settle();
  showRun();
  tell(`The key ${key} is at $FF.`);
}

return {toggleScreen, showScreen, showSight, paintScreen, screenKey, giveKey};
})();
if (typeof module !== "undefined") {
  module.exports = {toggleScreen, showScreen, showSight, paintScreen, screenKey, giveKey};
}
