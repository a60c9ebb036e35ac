"use strict";
// A screen of 32 by 32 places in memory, as many programs for beginners expect it: the low four
// bits of a byte are a colour. It begins at $0200, or where the maker of a page says.
const {drawScreen, countLit, drawPixels, clickPixels, pressInPixels} = (() => {

const SCREEN = 0x0200, SIDE = 32, PIXEL = 8;
const PALETTE = [
  "#000000", "#ffffff", "#8c2a2a", "#9be8e0", "#b84fc0", "#3fae4a", "#3038b0", "#f0e868",
  "#d9823b", "#6b4a12", "#f08080", "#4a4a4a", "#808080", "#a8f08a", "#5a9cf0", "#bcbcbc",
];

// Draws the screen from an address of a memory of 64 KiB on, onto a canvas of 256 by 256.
function drawScreen(context, memory, from = SCREEN) {
  for (let at = 0; at < SIDE * SIDE; at++) {
    context.fillStyle = PALETTE[memory[from + at & 65535] & 15];
    context.fillRect(at % SIDE * PIXEL, Math.floor(at / SIDE) * PIXEL, PIXEL, PIXEL);
  }
}

// How many places are not black, for those who do not see the picture.
function countLit(memory, from = SCREEN) {
  let count = 0;
  for (let at = 0; at < SIDE * SIDE; at++) if (memory[from + at & 65535] & 15) count++;
  return count;
}

const screenFrom = () => now.info.screen ?? SCREEN;

// The screen as a view of memory, with a frame around the chosen byte.
function drawPixels() {
  const pen = $("pixels").getContext("2d"), from = screenFrom(), side = PIXEL - 1;
  const at = now.byte - from & 65535;
  drawScreen(pen, now.memory, from);
  if (now.byte >= 0 && at < SIDE * SIDE) {
    pen.strokeStyle = now.memory[now.byte] & 1 ? "#000" : "#fff";
    pen.strokeRect(at % SIDE * PIXEL + .5, (at >> 5) * PIXEL + .5, side, side);
  }
  const lit = countLit(now.memory, from);
  const told = `32 by 32 places from ${address4(from)}, ${lit} of them not black`;
  const chosen = now.byte < 0 ? "" : `; ${address4(now.byte)} is ${hex(now.memory[now.byte])}`;
  $("pixels").setAttribute("aria-label", told + chosen);
}

// A click on a place: who changed its byte; again: there.
function clickPixels(event) {
  const scale = SIDE / $("pixels").clientWidth;
  const place = Math.floor(event.offsetY * scale) * SIDE + Math.floor(event.offsetX * scale);
  const at = screenFrom() + place & 65535;
  if (at == now.byte) return toUse(at, true, -1);
  now.byte = at;
  draw();
}

// Arrows go from place to place, and Enter is a second click.
function pressInPixels(event) {
  const by = {ArrowLeft: -1, ArrowRight: 1, ArrowUp: -SIDE, ArrowDown: SIDE}[event.key];
  if (!by && event.key != "Enter") return;
  event.preventDefault();
  event.stopPropagation();
  if (!by) return now.byte >= 0 && toUse(now.byte, true, -1);
  const from = screenFrom(), at = now.byte - from & 65535;
  const isInside = now.byte >= 0 && at < SIDE * SIDE;
  now.byte = from + (isInside ? at + by + SIDE * SIDE & SIDE * SIDE - 1 : 0) & 65535;
  draw();
}

return {drawScreen, countLit, drawPixels, clickPixels, pressInPixels};
})();
if (typeof module !== "undefined") {
  module.exports = {drawScreen, countLit, drawPixels, clickPixels, pressInPixels};
}
