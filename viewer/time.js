"use strict";
// The picture of time: calls above, labels below.
const {time, ink, zoom, drawTime, isDrawn, pointInTime, turnWheel} = (() => {

// The steps that it shows, the picture without what moves, and the labels that have a row.
const time = {from: 0, to: 1, still: null, lanes: []};

let inks = {};

function ink(name) {
  if (!inks[name]) {
    $("probe").style.color = `var(--${name})`;
    inks[name] = getComputedStyle($("probe")).color;
  }
  return inks[name];
}

function zoom(factor, k = now.cur) {
  const {from, to} = time, width = Math.min(now.run.n, Math.max(20, (to - from) * factor));
  const left = width * Math.min(1, Math.max(0, (k - from) / (to - from)));
  time.from = Math.max(0, Math.min(now.run.n - width, k - left));
  time.to = time.from + Math.max(width, 1);
  drawAnew();
}

// Shifts the picture so that the step shown is in it.
function shiftTime() {
  if (now.cur >= time.from && now.cur <= time.to) return;
  const width = time.to - time.from;
  time.from = Math.max(0, Math.min(now.run.n - width, now.cur - width * .3));
  time.to = time.from + width;
  time.still = null;
}

// Measures in pixels: the width of the names, the height of a call, where labels begin, their rows.
function timeLayout(canvas) {
  const root = getComputedStyle(document.documentElement), rem = parseFloat(root.fontSize);
  const width = canvas.clientWidth, height = canvas.clientHeight, isNarrow = width < 700;
  const gutter = Math.round(rem * (isNarrow ? 5.6 : 10)), slim = Math.round(rem * 1.14);
  const deep = Math.min(now.run.depth + 1, isNarrow ? 3 : 4), top = deep * slim + 6;
  const room = height - top - 11;
  const rows = Math.max(1, Math.min(costs.some, Math.floor(room / slim)));
  const row = Math.min(slim * 1.6, Math.floor(room / rows)), wide = width - gutter - 4;
  const ratio = devicePixelRatio || 1;
  return {rem, width, height, isNarrow, gutter, slim, deep, top, rows, row, wide, ratio};
}

// Where a step stands in the picture.
const timeX = (at, k) => at.gutter + (k - time.from) / (time.to - time.from) * at.wide;

function drawTime() {
  const canvas = $("roll"), at = timeLayout(canvas);
  if (!at.width || !at.height) return;
  shiftTime();
  const {width, height, ratio} = time.still || {};
  if (width != at.width * ratio || height != at.height * ratio || ratio != at.ratio) drawStill(at);
  canvas.width = at.width * at.ratio;
  canvas.height = at.height * at.ratio;
  const pen = canvas.getContext("2d");
  pen.drawImage(time.still, 0, 0);
  pen.scale(at.ratio, at.ratio);
  if (now.byte >= 0) drawUses(pen, at);
  drawHere(pen, at);
  const share = j => `${now.labels[j][0]} ${Math.round(costs.of[j] / costs.total * 100)}%`;
  const steps = `Steps ${grouped(Math.round(time.from))} to ${grouped(Math.round(time.to))}`;
  const shares = time.lanes.map(share).join(", ");
  canvas.setAttribute("aria-label", `${steps}; cycles by label: ${shares}`);
  time.at = at;
}

// Whether the picture is still right to a pixel. Each step of a long run would draw it anew.
function isDrawn() {
  const {still} = time;
  if (!still || still.run != now.run || still.cuts != now.run.cuts) return false;
  return (now.run.n - still.n) / (time.to - time.from) * still.wide < 1;
}

function drawStill(at) {
  const {run} = now;
  inks = {};
  const size = {width: at.width * at.ratio, height: at.height * at.ratio};
  time.still = Object.assign(document.createElement("canvas"), size);
  Object.assign(time.still, {ratio: at.ratio, wide: at.wide, run, n: run.n, cuts: run.cuts});
  $("slider").style.cssText = `margin-left:${at.gutter - 8}px;width:${at.width - at.gutter + 12}px`;
  const pen = time.still.getContext("2d"), mono = getComputedStyle(document.body);
  pen.scale(at.ratio, at.ratio);
  pen.textBaseline = "middle";
  pen.font = `${.78 * at.rem}px ${mono.getPropertyValue("--mono")}`;
  const {of, come} = costs, byCost = (i, j) => of[j] - of[i];
  const costly = now.labels.map((_, j) => j).filter(j => of[j]).sort(byCost);
  time.lanes = costly.slice(0, at.rows).sort((i, j) => come[i] - come[j]);
  drawCallBars(pen, at);
  drawHeat(pen, at);
  drawLaneNames(pen, at);
  pen.fillStyle = ink("dim");
  pen.fillText("calls", 6, at.slim / 2 + 2);
  drawTicks(pen, at, run.outAt, "ink");
  drawTicks(pen, at, run.entries, "irq");
  drawTicks(pen, at, noteSteps().map(k => k - 1), "read");
}

function drawCallBars(pen, at) {
  const edge = [];
  for (const call of now.run.calls) {
    if (call.depth >= at.deep) continue;
    const left = Math.max(at.gutter, timeX(at, call.start));
    const right = Math.min(at.width - 4, timeX(at, Math.min(call.end, now.run.n)));
    const isIn = right >= at.gutter && left <= at.width;
    // what would stand on the bar before is left out
    if (!isIn || right < (edge[call.depth] || 0) + .7) continue;
    edge[call.depth] = right;
    drawCallBar(pen, at, call, left, right - left);
  }
}

function drawCallBar(pen, at, call, left, width) {
  const top = call.depth * at.slim;
  pen.fillStyle = ink(call.irq ? "irq" : "dim");
  pen.globalAlpha = call.irq ? .9 : .2 + .08 * call.depth;
  pen.fillRect(left, top + 2, Math.max(width - (width > 3 ? 1 : 0), .8), at.slim - 2);
  pen.globalAlpha = 1;
  if (width <= at.rem * 2) return;
  pen.save();
  pen.beginPath();
  pen.rect(left, 0, width - 3, at.height);
  pen.clip();
  pen.fillStyle = ink(call.irq ? "panel" : "ink");
  pen.fillText(placeOf(call.at), left + 4, top + 1 + at.slim / 2);
  pen.restore();
}

// The cycles in each column of pixels, of each lane and in all.
function heatOf(at, wide) {
  const heat = time.lanes.map(() => new Float32Array(wide)), sum = new Float32Array(wide);
  const laneOf = new Int32Array(now.labels.length).fill(-1);
  time.lanes.forEach((j, lane) => laneOf[j] = lane);
  const {PC, head, took} = now.run, scale = at.wide / (time.to - time.from);
  const last = Math.min(now.run.n, Math.ceil(time.to));
  for (let k = Math.floor(time.from); k < last; k++) {
    const j = head[k] & NO_INSTRUCTION ? -1 : now.labelAt[PC[k]], lane = j < 0 ? -1 : laneOf[j];
    const left = Math.max(0, (k - time.from) * scale | 0);
    const right = Math.min(wide, Math.max(left + 1, (k + 1 - time.from) * scale | 0));
    for (let x = left; x < right; x++) {
      sum[x] += took[k];
      if (lane >= 0) heat[lane][x] += took[k];
    }
  }
  return {heat, sum};
}

function drawHeat(pen, at) {
  const wide = Math.max(1, Math.floor(at.wide)), {heat, sum} = heatOf(at, wide);
  time.lanes.forEach((_, lane) => {
    const top = at.top + lane * at.row;
    pen.fillStyle = ink("line");
    pen.fillRect(at.gutter, top + at.row - 1, at.wide, .5);
    pen.fillStyle = ink("code");
    for (let x = 0; x < wide; x++) {
      if (!heat[lane][x]) continue;
      pen.globalAlpha = .22 + .78 * heat[lane][x] / sum[x];
      pen.fillRect(at.gutter + x, top + 2, 1, at.row - 4);
    }
    pen.globalAlpha = 1;
  });
}

function drawLaneNames(pen, at) {
  const letters = Math.floor((at.gutter - 8) / (at.rem * .47)) - (at.isNarrow ? 0 : 5);
  time.lanes.forEach((j, lane) => {
    const middle = at.top + lane * at.row + at.row / 2, name = now.labels[j][0];
    const share = costs.of[j] / costs.total * 100;
    if (!at.isNarrow) {
      pen.textAlign = "right";
      pen.fillStyle = ink("dim");
      pen.fillText((share < 1 ? "<1" : Math.round(share)) + "%", at.gutter - 6, middle);
    }
    pen.textAlign = "left";
    pen.fillStyle = ink("ink");
    pen.fillText(name.length > letters ? name.slice(0, letters - 1) + "…" : name, 6, middle);
  });
}

function drawTicks(pen, at, steps, color) {
  pen.fillStyle = ink(color);
  for (const k of steps) {
    if (k >= time.from && k <= time.to) pen.fillRect(timeX(at, k + 1) - .5, at.top - 4, 1.2, 4);
  }
}

// Reads and writes of the chosen byte, at the foot.
function drawUses(pen, at) {
  const accessesBefore = (place, k) => {
    const step = Math.min(now.run.n, Math.ceil(k));
    return now.run.uses.before(place, now.run.first[step]);
  };
  for (const isStore of [0, 1]) {
    const place = now.byte + isStore * STORE;
    pen.fillStyle = ink(isStore ? "write" : "read");
    let before = accessesBefore(place, time.from);
    for (let x = 0; x < at.wide; x++) {
      const upTo = accessesBefore(place, time.from + (x + 1) * (time.to - time.from) / at.wide);
      if (upTo > before) pen.fillRect(at.gutter + x, at.height - (isStore ? 10 : 5), 1.3, 5);
      before = upTo;
    }
  }
}

// The step that is shown, and the lane of its label.
function drawHere(pen, at) {
  const lane = time.lanes.indexOf(now.labelAt[now.run.PC[now.cur]]), x = timeX(at, now.cur);
  if (lane >= 0) {
    pen.fillStyle = ink("nowink");
    pen.fillRect(0, at.top + lane * at.row + 2, 3, at.row - 4);
  }
  pen.fillStyle = ink("ink");
  pen.fillRect(x - .75, 0, 1.5, at.height);
  pen.fillStyle = ink("nowink");
  pen.beginPath();
  pen.moveTo(x - 5, 0);
  pen.lineTo(x + 5, 0);
  pen.lineTo(x, 7);
  pen.fill();
}

// A click or a drag in the picture: the step there, or, on a name, the next visit of that label.
function pointInTime(event) {
  const {at, lanes} = time, isDown = event.type == "pointerdown";
  if (event.offsetX >= at.gutter) {
    const part = (event.offsetX - at.gutter) / at.wide;
    return go(time.from + part * (time.to - time.from), isDown);
  }
  const j = lanes[Math.floor((event.offsetY - at.top) / at.row)];
  if (isDown && j >= 0) toVisit(now.labels[j][1], 1);
}

function turnWheel(event) {
  event.preventDefault();
  const {at, from, to} = time, part = Math.max(0, event.offsetX - at.gutter) / at.wide;
  zoom(1.25 ** Math.sign(event.deltaY), from + part * (to - from));
}

return {time, ink, zoom, drawTime, isDrawn, pointInTime, turnWheel};
})();
if (typeof module !== "undefined") {
  module.exports = {time, ink, zoom, drawTime, isDrawn, pointInTime, turnWheel};
}
