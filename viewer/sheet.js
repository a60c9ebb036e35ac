"use strict";
// The steps of a run as a table, for paper: what each did, and the registers after it; and a moment
// as text.
const {writeSheet, momentText, copyMoment} = (() => {

const MOST = 100;                         // steps of a sheet
const SHEET = ["Step", "Line", "Instruction", "What it did", "A", "X", "Y", "S", "Flags", "Cycles"];

function rowTold(k, text) {
  const {run} = now, place = escaped(lineOrAddress(run.PC[k]).replace(/^line /, ""));
  const cells = [..."AXYS"].map(name => hex(run[name][k + 1]));
  const told = [k + 1, place, text, effectsOf(k, true), ...cells, flagsAt(k + 1), run.C[k + 1]];
  return `<tr><td>${told.join("</td><td>")}</td></tr>`;
}

const noteRows = k => notesAt(k).map(text =>
  `<tr><td>${k}</td><td colspan="${SHEET.length - 1}"><b>Note:</b> ${escaped(text)}</td></tr>`);

// Writes the steps from the one that is shown on, or all if they are few.
function writeSheet() {
  const {run, cur} = now, from = run.n <= MOST ? 0 : cur, to = Math.min(run.n, from + MOST);
  const turn = (a, b) => flipStores(run.first[Math.min(a, b)], run.first[Math.max(a, b)]);
  const rows = [];
  turn(cur, from);
  for (let k = from; k < to; k++) {
    const text = instructionTold(k);
    turn(k, k + 1);
    rows.push(...noteRows(k), rowTold(k, text));
  }
  rows.push(...noteRows(to));
  turn(to, cur);
  const heads = SHEET.map(head => `<th scope="col">${head}</th>`).join("");
  const caption = `Steps ${grouped(from)} to ${grouped(to)} of ${grouped(run.n)}`;
  put("sheet", `<caption>${caption}</caption><thead><tr>${heads}</tr></thead>${rows.join("")}`);
}

// The moment that is shown: registers, what comes next, and the page of memory.
function momentText() {
  const {run, cur, memory} = now, pc = run.PC[cur], source = textAt(now.lineAt[pc]);
  const regs = [..."AXYS"].map(name => `${name}=${hex(run[name][cur])}`).join(" ");
  const next = source?.trim() ?? disassembled(pc)[0];
  const rows = addresses.slice(0, 16).map(row => {
    const at = sight.page * 256 + row * 16, bytes = [...memory.slice(at, at + 16)];
    return `${hex(at, 4)}  ${bytes.map(byte => hex(byte)).join(" ")}`;
  });
  const state = `${regs}  ${flagsAt(cur)}  PC=${hex(pc, 4)}  ${run.C[cur]} cycles`;
  return [`${now.info.title}, step ${cur} of ${run.n}`, state, `${lineOrAddress(pc)}: ${next}`,
    ...rows, ""].join("\n");
}

function copyMoment() {
  const tell = words => $("found").textContent = $("say").textContent = words;
  const board = globalThis.navigator?.clipboard;
  if (!board) return tell("not copied");
  board.writeText(momentText()).then(() => tell("copied"), () => tell("not copied"));
}

return {writeSheet, momentText, copyMoment};
})();
if (typeof module !== "undefined") module.exports = {writeSheet, momentText, copyMoment};
