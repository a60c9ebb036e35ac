"use strict";
// The map of all memory: a square of 2 by 2 for a byte, 34 by 34 for a page.
const {drawMap, clickMap, pressInMap} = (() => {

const mapX = at => (at >> 8 & 15) * 34 + (at & 15) * 2;
const mapY = at => (at >> 12) * 34 + (at >> 4 & 15) * 2;
let ran = {};

// The first step that ran an instruction with a byte in it, for each byte.
function firstRuns() {
  if (ran.run == now.run && ran.version == now.run.version) return ran.first;
  const first = new Float64Array(65536).fill(Infinity);
  for (let k = now.run.n - 1; k >= 0; k--) {
    if (now.run.head[k] & NO_INSTRUCTION) continue;
    for (let j = lengthOf(now.run.op[k]) - 1; j >= 0; j--) first[now.run.PC[k] + j & 65535] = k;
  }
  ran = {run: now.run, version: now.run.version, first};
  return first;
}

function drawMap() {
  const pen = $("map").getContext("2d"), first = firstRuns(), counts = {code: 0, write: 0, read: 0};
  pen.clearRect(0, 0, 544, 544);
  pen.fillStyle = ink("line");
  pen.globalAlpha = .45;
  for (let p = 0; p < 256; p++) pen.fillRect((p & 15) * 34, (p >> 4) * 34, 32, 32);
  const {uses, step, image} = now.run;
  const firstUse = place => uses.count(place) ? step[uses.pick(place, 0)] : Infinity;
  for (let at = 0; at < 65536; at++) {
    const code = first[at], read = firstUse(at), write = firstUse(at + STORE);
    if (code < now.cur) counts.code++;
    if (write < now.cur) counts.write++;
    if (read < now.cur) counts.read++;
    const came = Math.min(code, read, write), isUsed = came < Infinity;
    if (!isUsed && !image[at]) continue;
    const used = write < Infinity ? "write" : code < Infinity ? "code" : "read";
    pen.fillStyle = ink(isUsed ? used : "faint");
    pen.globalAlpha = came < now.cur || !isUsed ? 1 : .3;
    pen.fillRect(mapX(at), mapY(at), 2, 2);
  }
  drawMapFrames(pen);
  drawMapLegend(counts);
}

function drawMapFrames(pen) {
  const pc = now.run.PC[now.cur];
  pen.globalAlpha = 1;
  pen.strokeStyle = pen.fillStyle = ink("ink");
  if (now.byte >= 0) pen.strokeRect(mapX(now.byte) - 1.5, mapY(now.byte) - 1.5, 5, 5);
  pen.strokeRect((pc >> 8 & 15) * 34 - 1, (pc >> 12) * 34 - 1, 34, 34);
}

function drawMapLegend({code, write, read}) {
  const sorts = [["code", "code that ran", code], ["write", "written", write],
                 ["read", "read", read], ["faint", "loaded only"]];
  const html = ([name, text, many]) => `<span><i style="background:var(--${name})"></i>${text}` +
    `${many === undefined ? "" : " " + grouped(many)}</span>`;
  put("legend", sorts.map(html).join(" ") + "<br>A block is a page, a row of blocks 4 KiB." +
    " Pale: touched later. Click: that page.");
}

function clickMap(event) {
  const scale = 272 / $("map").clientWidth, x = event.offsetX * scale, y = event.offsetY * scale;
  const low = Math.min(15, Math.floor(y % 17)) << 4 | Math.min(15, Math.floor(x % 17));
  now.byte = (Math.floor(y / 17) << 12 | Math.floor(x / 17) << 8 | low) & 65535;
  showPage(now.byte >> 8);
}

// Arrows go from page to page, and Enter shows the page.
function pressInMap(event) {
  const by = {ArrowLeft: -256, ArrowRight: 256, ArrowUp: -4096, ArrowDown: 4096}[event.key];
  if (!by && event.key != "Enter") return;
  event.preventDefault();
  event.stopPropagation();
  if (!by) return showPage(Math.max(now.byte, 0) >> 8);
  now.byte = Math.max(now.byte, 0) + by & 65535;
  draw();
}

return {drawMap, clickMap, pressInMap};
})();
if (typeof module !== "undefined") module.exports = {drawMap, clickMap, pressInMap};
