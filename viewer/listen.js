"use strict";
// The document around the panels: buttons, and what clicks and keys in each panel do.
const {makeButtons, listen} = (() => {

const SEEK = '<span id="seek" role="search"><input id="find" placeholder="Find: A=0, $0010=45"' +
  ' aria-label="Find a condition, a name, an address or a text" autocomplete="off"' +
  ' spellcheck="false"><button value="-1" aria-label="Find before">◂</button>' +
  '<button value="1" aria-label="Find next">▸</button>' +
  '<span id="found" role="status"></span></span>';

function makeButtons() {
  for (const [words, path, act] of MOVES) {
    const button = addButton($("moves"), "", "", act);
    button.title = words;
    button.setAttribute("aria-label", words);
    button.innerHTML = `<svg viewBox="0 0 20 20" aria-hidden="true"><path d="${path}"/></svg>`;
  }
  $("looks").innerHTML = SEEK;
  addButton($("looks"), "Light/dark", "", changeLight);
  addButton($("looks"), "Keys", "", () => $("help").showModal());
  const tabs = [["Program", "code"], ["Machine", "machine"], ["Memory", "memory"],
                ["Time", "time"]];
  for (const [text, value] of tabs) addButton($("tabs"), text, value, showTab);
  setPressed($("tabs"), document.body.dataset.tab);
}

function showTab(value) {
  document.body.dataset.tab = value;
  setPressed($("tabs"), value);
  draw();
  revealByte();
}

function listenToLists() {
  $("rows").onclick = clickLine;
  $("sources").onchange = event => showFile(+event.target.value);
  $("rows").onkeydown = pressInLines;
  $("regs").onkeydown = $("flags").onkeydown = $("pc").onkeydown = pressAsClick;
  // Shift would select text
  $("rows").onmousedown = event => event.shiftKey && event.preventDefault();
  $("visit").onclick = event => {
    const {v, l} = event.target.dataset;
    if (v) toVisit(chosenLine(), +v);
    if (l) toLine(+l);
  };
  $("names").onclick = event => {
    const button = event.target.closest("button");
    if (button) choose(+button.dataset.a);
  };
  $("regs").onclick = event => {
    const name = event.target.closest(".reg")?.dataset.r;
    if (name) toSet(name);
  };
  $("pc").onclick = toJump;
  $("flags").onclick = event => {
    const bit = event.target.closest("[data-bit]")?.dataset.bit;
    if (bit) toSet("P", +bit);
  };
  $("calls").onclick = event => {
    const button = event.target.closest("button");
    if (button) jump(+button.dataset.go);
  };
  $("out").onclick = clickConsole;
  $("out").onkeydown = pressInConsole;
  $("form").onclick = () => {
    out.isSettled = true;
    readOutput(!out.isHex);
    draw();
  };
}

function listenToMemory() {
  $("grid").onclick = event => {
    const at = cellAt(event.target);
    if (at < 0) return;
    event.target.focus();
    if (at == now.byte) return toUse(at, true, -1);
    now.byte = at;
    draw();
  };
  $("grid").onkeydown = pressInGrid;
  $("cell").onclick = event => {
    const {by, w, keep} = event.target.dataset;
    if (keep) keepByte();
    if (by) toUse(now.byte, w == "1", +by);
  };
  $("map").onclick = clickMap;
  $("map").onkeydown = pressInMap;
  $("pixels").onclick = clickPixels;
  $("pixels").onkeydown = pressInPixels;
  $("note").onclick = event => {
    const by = event.target.dataset.n;
    if (by) toNote(+by);
  };
}

function listenToTime() {
  const canvas = $("roll");
  $("slider").oninput = event => go(+event.target.value);
  $("step").onkeydown = typeStep;
  canvas.onpointerdown = event => {
    canvas.setPointerCapture(event.pointerId);
    pointInTime(event);
  };
  canvas.onpointermove = event => event.buttons && pointInTime(event);
  canvas.onwheel = turnWheel;
}

// Enter looks on, with Shift back; so do the buttons.
function listenToFind() {
  const form = $("seek"), field = $("find");
  const look = by => $("found").textContent = $("found").title = find(field.value, by);
  field.onkeydown = event => {
    event.stopPropagation();
    if (event.key == "Escape") field.blur();
    if (event.key == "Enter") look(event.shiftKey ? -1 : 1);
  };
  field.oninput = () => $("found").textContent = $("found").title = "";
  for (const button of form.querySelectorAll("button")) button.onclick = () => look(+button.value);
}

function typeStep(event) {
  event.stopPropagation();
  if (event.key == "Escape") {
    event.target.blur();
    draw();
  } else if (event.key == "Enter") {
    const k = parseInt(event.target.value.replace(/\D/g, ""));
    event.target.blur();
    if (k >= 0) jump(k);
  }
}

function listenToWindow() {
  const setLight = value => {
    document.documentElement.style.colorScheme = value;
    drawAnew();
  };
  addEventListener("keydown", pressKey);
  addEventListener("resize", drawAnew);
  addEventListener("beforeprint", () => {
    writeSheet();
    setLight("light");
  });
  addEventListener("afterprint", () => setLight(""));
  matchMedia("(prefers-color-scheme:dark)").onchange = drawAnew;
}

function listen() {
  listenToLists();
  listenToMemory();
  listenToTime();
  listenToFind();
  listenToWindow();
}

return {makeButtons, listen};
})();
if (typeof module !== "undefined") module.exports = {makeButtons, listen};
