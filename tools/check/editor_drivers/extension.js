// Runs the extension for VS Code in node, with a stand-in for the module `vscode`: node extension.js FOLDER.
// Environment: PROGRAM, ROOM (a folder, in which it writes). It prints a row for each thing, 'right' or
// 'WRONG', and what.
const fs = require("fs"), Module = require("module"), path = require("path");
const vscode = require("./vscode.js"), {at, Position, Range} = vscode;
const children = require("child_process"), {spawn} = children, started = [];
children.spawn = (...words) => {
  started.push(spawn(...words));
  return started.at(-1);
};
const load = Module._load;
Module._load = (name, ...more) => (name === "vscode" ? vscode : load(name, ...more));

const FOLDER = path.resolve(process.argv[2]), {PROGRAM, ROOM} = process.env;
const OWN = JSON.parse(fs.readFileSync(`${FOLDER}/package.json`, "utf8"));
const extension = require(`${FOLDER}/${OWN.main}`), program = require(`${FOLDER}/program.js`);
const SOURCE = [
  "; A text, and a loop that never ends.", "port    = $F000", "count   = $80", "        *=$0200", "start:  LDX #3",
  "next:   STA port", "        DEX", "        BNE next", "loop:   INC count", "        JMP loop", "        *=$FFFC",
  "        .WORD start", ""];
const TEXT = SOURCE.join("\n"), FILE = `${ROOM}/a source.a65`;
const NO_CANCEL = {onCancellationRequested: () => {}};

const say = (is, what) => console.log(`${is ? "right" : "WRONG"}: ${what}`);
const lineOf = text => SOURCE.findIndex(it => it.includes(text));
const place = (text, name) => new Position(lineOf(text), SOURCE[lineOf(text)].indexOf(name));
const whole = line => new Range(new Position(line, 0), new Position(line, SOURCE[line].length));

/** Waits until something holds, and says whether it came to hold. */
async function wait(holds, what) {
  for (const end = Date.now() + 30000; !holds() && Date.now() < end;) await new Promise(done => setTimeout(done, 20));
  say(holds(), what);
}

async function notFound() {
  at.set("mos65.path", "/no such/mos65");
  await extension.activate({subscriptions: []});
  const text = at.shown[0] || "";
  say(at.shown.length === 1 && text.includes('"/no such/mos65"') && text.includes("mos65.path"),
    "a program that is not there is told, with the setting");
  at.clicks.push("Open Settings");
  await program.complainOfNone();
  say(at.ran.some(([name]) => name === "workbench.action.openSettings"), "a button opens the settings");
}

function places() {
  const windows = {path: path.win32, folders: ["C:\\one", "D:\\two words"], home: "C:\\Users\\u", ends: [".exe", ""]};
  const of = name => program.places(name, windows).join(" | ");
  say(of("mos65") === "C:\\one\\mos65.exe | C:\\one\\mos65 | D:\\two words\\mos65.exe | D:\\two words\\mos65",
    "the folders of Windows' path");
  say(of("C:\\my tools\\mos65.exe").split(" | ").includes("C:\\my tools\\mos65.exe"), "a whole path of Windows");
  say(of("~\\mos65.exe").includes("C:\\Users\\u\\mos65.exe"), "the folder of a user");
}

async function marks() {
  const document = at.open(FILE, TEXT);
  await wait(() => at.marks(document), "a source with a space in its name is marked");
  say((at.marks(document) || [0]).length === 0, "no mark on a source without a fault");
  const line = lineOf("LDX");
  at.edit(document, whole(line), "start:  LDX #$100");
  await wait(() => at.marks(document).length === 1, "a mark comes with a fault");
  const [mark] = at.marks(document);
  say(mark && mark.code === "ByteRange" && mark.severity === 0 && mark.range.start.line === line, "it is an error, a ByteRange");
  at.edit(document, new Range(new Position(line, 0), new Position(line, 17)), SOURCE[line]);
  await wait(() => at.marks(document).length === 0, "it goes when the line is mended");
  say(document.text === TEXT, "the text is what it was");
  return document;
}

const has = (name, ...words) => at.providers[name][`provide${words[0]}`](...words.slice(1));

async function names(document) {
  const use = place("BNE", "next");
  const hover = await has("Hover", "Hover", document, use, NO_CANCEL);
  say(hover.contents[0].value.includes("next"), "hover on a name");
  const [defined] = await has("Definition", "Definition", document, use, NO_CANCEL);
  say(defined.range.start.line === lineOf("next:"), "its definition");
  const uses = await has("Reference", "References", document, use, {includeDeclaration: true}, NO_CANCEL);
  say(uses.length === 2 && uses.every(it => it.uri.toString() === document.uri.toString()), "its places");
  const edit = await has("Rename", "RenameEdits", document, use, "onward", NO_CANCEL);
  say(at.after(document, edit) === TEXT.replace(/\bnext\b/g, "onward"), "another name");
  const refused = await has("Rename", "RenameEdits", document, use, "LDA", NO_CANCEL).catch(it => it.message);
  say(typeof refused === "string" && refused.length > 0, "a name that may not be is refused in words");
  const symbols = await has("DocumentSymbol", "DocumentSymbols", document, NO_CANCEL);
  say(["port", "count", "start", "next", "loop"].every(it => symbols.some(symbol => symbol.name === it)), "all names");
  const offered = await has("CompletionItem", "CompletionItems", document, use, NO_CANCEL);
  say(offered.some(it => it.label === "count"), "names are offered");
}

async function lines(document) {
  const signature = await has("SignatureHelp", "SignatureHelp", document, place("STA", "port"), NO_CANCEL);
  say(signature.signatures.length === 7 && at.providers.SignatureHelp.more.includes(" "), "the seven forms of STA");
  const all = new Range(new Position(0, 0), new Position(SOURCE.length - 1, 0));
  const hints = await has("InlayHints", "InlayHints", document, all, NO_CANCEL);
  say(hints.some(it => it.position.line === lineOf("LDX") && it.label === "$0200, 2 cycles"), "addresses and cycles");
  const folds = await has("FoldingRange", "FoldingRanges", document, {}, NO_CANCEL);
  say(folds.some(it => it.start === lineOf("next:") && it.end === lineOf("BNE")), "folds");
  const tokens = await has("DocumentSemanticTokens", "DocumentSemanticTokens", document, NO_CANCEL);
  say(tokens.data.length > 0 && tokens.data.length % 5 === 0, "colours by meaning");
  const line = lineOf("LDX");
  at.edit(document, whole(line), "start:  LDB #3");
  await wait(() => at.marks(document).length === 1, "a mark on a word that is no mnemonic");
  const actions = await has("CodeActions", "CodeActions", document, whole(line), {diagnostics: at.marks(document)}, NO_CANCEL);
  say(actions.length === 1 && /LDA/.test(at.after(document, actions[0].edit)), "the right word in its place");
  at.edit(document, new Range(new Position(line, 0), new Position(line, 14)), SOURCE[line]);
}

async function server(document) {
  at.set("mos65.path", PROGRAM);
  const first = await document();
  await names(first);
  await lines(first);
  const servers = started.length;
  at.set("mos65.port", "none such");
  await wait(() => at.shown.some(it => it.includes("mos65.port")), "a wrong setting is told");
  at.set("mos65.port", "0200");
  await wait(() => at.marks(first).some(it => it.code === "PortAddress"), "the marks on another port");
  at.set("mos65.port", "");
  await wait(() => at.marks(first).length === 0, "the marks as before");
  say(started.length === servers, "one server with all settings");
  started[started.length - 1].kill();
  await wait(() => at.shown.some(it => it.includes("has ended")), "a server that ends is told");
  at.set("mos65.profile", "N");
  await wait(() => at.marks(first) && at.marks(first).length === 0, "it starts again with another setting");
  at.close(first);
  say(at.marks(first) === undefined, "a text that is closed has no marks");
}

/** A session of the debugger, as VS Code holds one. */
class Session {
  constructor() {
    this.adapter = at.providers.adapter.createDebugAdapterDescriptor({}).implementation;
    this.seq = 0;
    this.got = [];
    this.adapter.onDidSendMessage(it => this.got.push(it));
  }

  ask(command, args) {
    this.seq += 1;
    this.adapter.handleMessage({seq: this.seq, type: "request", command, arguments: args});
    return this.seq;
  }

  async answer(command, args) {
    const seq = this.ask(command, args);
    await wait(() => this.got.some(it => it.request_seq === seq), `an answer to ${command}`);
    return this.got.find(it => it.request_seq === seq);
  }

  count(event) { return this.got.filter(it => it.event === event).length; }

  /** Moves, and waits for the stop. The line at which the program stands then. */
  async moves(command) {
    const before = this.count("stopped");
    this.ask(command, {threadId: 1});
    await wait(() => this.count("stopped") > before, `a stop after ${command}`);
    const {body} = await this.answer("stackTrace", {threadId: 1});
    return body.stackFrames[0].line - 1;
  }
}

async function begins(session, configuration) {
  await session.answer("initialize", {adapterID: "mos65", linesStartAt1: true, columnsStartAt1: true});
  session.ask("launch", configuration);
  await wait(() => session.count("initialized") === 1, "initialized");
  await session.answer("configurationDone", {});
  await wait(() => session.count("stopped") === 1, "a stop on entry");
}

async function launches() {
  const {configuration} = at.providers;
  vscode.window.activeTextEditor = undefined;
  say(configuration.resolveDebugConfiguration(undefined, {}) === undefined && /no program is named/.test(at.shown.at(-1)),
    "without a source a launch says what it lacks");
  vscode.window.activeTextEditor = {document: {languageId: "mos65"}};
  const made = configuration.resolveDebugConfiguration(undefined, {});
  say(made.program === "${file}" && made.request === "launch" && made.type === "mos65", "F5 needs no launch.json");
  at.set("mos65.path", "/no such/mos65");
  say(configuration.resolveDebugConfigurationWithSubstitutedVariables(undefined, made) === undefined &&
    /is not found/.test(at.shown.at(-1)), "a launch without the program is told");
  at.set("mos65.path", PROGRAM);
  say(configuration.resolveDebugConfigurationWithSubstitutedVariables(undefined, made) === made, "with it it goes on");
  return {...made, program: FILE, steps: 20000, history: 20};
}

async function debugged() {
  fs.writeFileSync(FILE, TEXT);
  const configuration = await launches(), session = new Session();
  await begins(session, configuration);
  say(await session.moves("next") === lineOf("next:"), "a step");
  say(await session.moves("stepBack") === lineOf("start:"), "a step back");
  session.ask("continue", {threadId: 1});
  await new Promise(done => setTimeout(done, 500));
  say(session.count("stopped") === 3, "an endless run goes on");
  const line = await session.moves("pause");
  say(line === lineOf("INC") || line === lineOf("JMP"), "pause ends it");
  await session.moves("reverseContinue");
  say(session.got.filter(it => it.event === "stopped").at(-1).body.reason === "entry", "the way back to the oldest state");
  const {room} = session.adapter.copy;
  say(fs.existsSync(room), "a copy of what is sent");
  await session.answer("disconnect", {});
  await wait(() => !fs.existsSync(room), "it is removed");
  const cut = new Session();
  await cut.answer("initialize", {adapterID: "mos65"});
  cut.adapter.process.kill();
  await wait(() => cut.count("terminated") === 1, "a session whose program was ended is over");
}

async function main() {
  places();
  await notFound();
  await server(marks);
  await debugged();
  await extension.deactivate();
  await wait(() => started.every(it => it.exitCode !== null || it.signalCode), `an end of all ${started.length} programs`);
}

main().catch(it => {
  say(false, it.stack);
  process.exit(1);
});
