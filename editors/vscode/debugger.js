// Debugging by `mos65 dap`: what a launch needs, and the adapter's process.
const {spawn} = require("child_process"), fs = require("fs"), os = require("os"), path = require("path");
const vscode = require("vscode");
const {framed, Reader} = require("./messages.js"), program = require("./program.js");

const FRESH = {type: "mos65", request: "launch", name: "Debug this source", program: "${file}", stopOnEntry: true};

/** A copy of what is sent, by whose length the adapter sees during a run that something has come, as
 *  pause. Without a folder for it the adapter does without. */
class Copy {
  constructor() {
    try {
      this.room = fs.mkdtempSync(path.join(os.tmpdir(), "mos65-"));
      this.file = path.join(this.room, "seen");
      fs.writeFileSync(this.file, "");
    } catch {
      this.file = undefined;
    }
  }

  words() { return this.file ? ["--seen", this.file] : []; }

  add(bytes) {
    if (this.file) fs.appendFileSync(this.file, bytes);
  }

  remove() {
    if (this.room) fs.rmSync(this.room, {recursive: true, force: true});
    this.room = this.file = undefined;
  }
}

class Adapter {
  constructor(file) {
    this.sent = new vscode.EventEmitter();
    this.onDidSendMessage = this.sent.event;
    this.asked = new Map();
    this.errors = "";
    this.copy = new Copy();
    const reader = new Reader(it => this.take(it));
    this.process = spawn(file, ["dap", ...this.copy.words()]);
    this.process.stdout.on("data", it => reader.add(it));
    this.process.stderr.on("data", it => { this.errors += it; });
    this.process.stdin.on("error", () => {});
    this.process.on("error", it => this.end(it.message));
    this.process.on("close", status => this.end(`it has ended with status ${status}`));
  }

  handleMessage(message) {
    if (message.type === "request") this.asked.set(message.seq, message.command);
    const bytes = framed(message);
    this.copy.add(bytes);
    this.process.stdin.write(bytes);
  }

  take(message) {
    if (message.type === "response") this.asked.delete(message.request_seq);
    this.sent.fire(message);
  }

  /** The process has ended: what was asked is refused, and the session is over. */
  end(why) {
    if (this.isOver) return;
    this.isOver = true;
    this.copy.remove();
    const text = `mos65: ${why}${this.errors ? `: ${this.errors.trim()}` : ""}`;
    for (const [request_seq, command] of this.asked)
      this.sent.fire({type: "response", seq: 0, request_seq, command, success: false, message: text});
    this.sent.fire({type: "event", seq: 0, event: "terminated"});
  }

  dispose() {
    if (!this.isOver) this.process.kill();
    this.copy.remove();
  }
}

/** What a configuration lacks: all of it where there is no launch.json, and what the settings say. */
function resolve(folder, it) {
  const editor = vscode.window.activeTextEditor;
  const is_fresh = !it.type && !it.request && !it.name;
  const full = is_fresh && editor && editor.document.languageId === "mos65" ? {...FRESH} : it;
  if (full.program) return {...program.options(), ...full};
  program.complain('mos65: no program is named. Open a source, or write "program" into launch.json.');
  return undefined;
}

/** Ends a launch at once where the program is not found. */
function resolved(folder, it) {
  if (program.found()) return it;
  program.complainOfNone();
  return undefined;
}

exports.register = () => [
  vscode.debug.registerDebugConfigurationProvider("mos65", {
    resolveDebugConfiguration: resolve, resolveDebugConfigurationWithSubstitutedVariables: resolved,
    provideDebugConfigurations: () => [{...FRESH}],
  }),
  vscode.debug.registerDebugAdapterDescriptorFactory("mos65", {
    createDebugAdapterDescriptor: () => new vscode.DebugAdapterInlineImplementation(new Adapter(program.found())),
  }),
];
