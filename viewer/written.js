"use strict";
// The names of bytes that the run writes, each with up to eight bytes, and the bytes that the
// reader has put into the list.
const {written, readWritten, isNamed, keepByte, drawNames} = (() => {

const written = {names: [], kept: new Set()};

const isNamed = address => written.names.some(it => it.at == address);

function readWritten() {
  const isPort = at => at >= now.info.port && at <= now.info.port + 3;
  const made = [...now.named].map(([at, name]) => {
    let length = 0;
    for (let k = 0; k < 8 && !(k && now.named.has(at + k)); k++) {
      if (now.run.uses.count(at + k + STORE)) length = k + 1;
    }
    return {at, name, length};
  });
  written.names = made.filter(it => it.length && !isPort(it.at));
  for (const at of written.kept) {
    if (!isNamed(at)) written.names.push({at, name: nameOf(at) || address4(at), length: 1});
  }
  written.names.sort((a, b) => a.at - b.at);
  $("names").style.flexBasis = Math.min(written.names.length, 5) * 1.45 + "rem";
  $("named").hidden = !written.names.length;
}

// Puts the chosen byte into the list, or takes it out again. A name that the run writes stays.
function keepByte() {
  if (now.byte < 0) return;
  if (!written.kept.delete(now.byte)) written.kept.add(now.byte);
  readWritten();
  draw();
}

function drawNames() {
  const {run, cur, memory} = now, end = run.first[cur], wrote = new Set();
  for (let i = cur && run.first[cur - 1]; i < end; i++) {
    if (run.isStore(i)) wrote.add(run.where[i]);
  }
  const told = at => {
    const isKnown = run.image[at] || run.uses.before(at + STORE, end);
    const sort = wrote.has(at) ? "W" : isKnown ? "" : "nv";
    return ` <span class="${sort}">${hex(memory[at])}</span>`;
  };
  put("names", written.names.map(({at, name, length}) => {
    const bytes = Array.from({length}, (_, k) => told(at + k)).join("");
    const one = `${memory[at]} ${escaped(glyph(memory[at]))}`;
    const two = address4(memory[at] | memory[at + 1] << 8);
    const mark = at == now.byte ? ' class="pick"' : "";
    return `<button data-a="${at}"${mark}><b title="${escaped(name)}">${escaped(name)}</b>` +
      `<u>${bytes}</u><span>${length == 1 ? one : length == 2 ? two : ""}</span></button>`;
  }).join(""));
}

return {written, readWritten, isNamed, keepByte, drawNames};
})();
if (typeof module !== "undefined") {
  module.exports = {written, readWritten, isNamed, keepByte, drawNames};
}
