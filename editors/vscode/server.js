// A client of `mos65 lsp`: its process, its requests, and the texts that it is told of.
const {spawn} = require("child_process"), vscode = require("vscode");
const {framed, Reader} = require("./messages.js");

const LANGUAGE = "mos65", DELAY = 100, PATIENCE = 4000, INCREMENTAL = 2, METHOD_NOT_FOUND = -32601;
const CAPABILITIES = {
  general: {positionEncodings: ["utf-16"]},
  textDocument: {
    publishDiagnostics: {relatedInformation: true}, hover: {contentFormat: ["markdown", "plaintext"]},
    completion: {completionItem: {documentationFormat: ["markdown", "plaintext"]}},
    signatureHelp: {signatureInformation: {documentationFormat: ["markdown", "plaintext"]}},
    codeAction: {codeActionLiteralSupport: {codeActionKind: {valueSet: ["quickfix"]}}},
    documentSymbol: {hierarchicalDocumentSymbolSupport: true}, rename: {prepareSupport: true},
    semanticTokens: {requests: {full: true}, tokenTypes: [], tokenModifiers: [], formats: ["relative"]},
    foldingRange: {lineFoldingOnly: true}, definition: {}, references: {}, documentHighlight: {}, inlayHint: {},
  },
  workspace: {workspaceEdit: {documentChanges: true}, symbol: {}},
};

const place = it => ({line: it.line, character: it.character});
exports.range = it => ({start: place(it.start), end: place(it.end)});
exports.LANGUAGE = LANGUAGE;

exports.Server = class {
  /** Starts a program, to which the settings are told. `told` is called with the method and the parameters of each notification, and
   *  `ended` with its status, or why it did not start, and what it wrote on its error stream. */
  constructor(program, settings, {told, ended}) {
    Object.assign(this, {settings, told, ended, asked: new Map(), changed: new Map(), number: 0, errors: "", isOver: false});
    this.process = spawn(program, ["lsp"]);
    const reader = new Reader(it => this.take(it));
    this.process.stdout.on("data", it => reader.add(it));
    this.process.stderr.on("data", it => { this.errors += it; });
    this.process.stdin.on("error", () => {});
    this.process.on("error", it => this.end(it.message));
    this.process.on("close", status => this.end(status));
  }

  /** Begins the session: then the server's capabilities are known. False where it has ended before. */
  async begin() {
    const folders = (vscode.workspace.workspaceFolders || []).map(it => ({uri: it.uri.toString(), name: it.name}));
    const answer = await this.ask("initialize", {
      processId: process.pid, rootUri: folders.length ? folders[0].uri : null, workspaceFolders: folders,
      capabilities: CAPABILITIES, initializationOptions: this.settings,
    });
    if (!answer) return false;
    this.capabilities = answer.capabilities;
    const sync = this.capabilities.textDocumentSync;
    this.isIncremental = (sync && sync.change !== undefined ? sync.change : sync) === INCREMENTAL;
    this.tell("initialized", {});
    return true;
  }

  send(message) {
    if (!this.isOver) this.process.stdin.write(framed({jsonrpc: "2.0", ...message}));
  }

  tell(method, params) { this.send({method, params}); }

  /** Sends a request. The promise has the result; a refusal rejects it with the server's words. */
  ask(method, params, token) {
    if (this.isOver) return Promise.resolve(null);
    this.flush();
    const id = ++this.number;
    const answer = new Promise((done, fail) => this.asked.set(id, {done, fail}));
    if (token) token.onCancellationRequested(() => this.tell("$/cancelRequest", {id}));
    this.send({id, method, params});
    return answer;
  }

  take(message) {
    if (message.method === undefined) return this.answered(message);
    if (message.id === undefined) return this.told(message.method, message.params);
    const error = {code: METHOD_NOT_FOUND, message: `${message.method} is not served`};
    return this.send({id: message.id, error});
  }

  answered({id, result, error}) {
    const request = this.asked.get(id);
    this.asked.delete(id);
    if (!request) return;
    if (error) request.fail(new Error(error.message));
    else request.done(result);
  }

  /** The process has ended: what was asked has no answer. */
  end(status) {
    if (this.isOver) return;
    this.isOver = true;
    clearTimeout(this.timer);
    for (const {done} of this.asked.values()) done(null);
    this.asked.clear();
    this.ended(status, this.errors.trim());
  }

  /** Ends the session, as the protocol wants it, or the process where it does not answer. */
  async stop() {
    if (this.isOver) return;
    const gone = new Promise(done => { this.process.on("close", done); });
    const timer = setTimeout(() => this.process.kill(), PATIENCE);
    this.ask("shutdown").catch(() => {}).then(() => {
      this.tell("exit");
      this.process.stdin.end();
    });
    await gone;
    clearTimeout(timer);
  }

  /** Tells other settings: the marks of all texts come again. */
  configure(settings) {
    this.flush();
    this.tell("workspace/didChangeConfiguration", {settings: {[LANGUAGE]: settings}});
  }

  open(document) {
    this.tell("textDocument/didOpen", {textDocument: {
      uri: document.uri.toString(), languageId: LANGUAGE, version: document.version, text: document.getText(),
    }});
  }

  /** Notes a change. It is sent a moment later, or before the next request. */
  change(document, changes) {
    const uri = document.uri.toString(), before = this.changed.get(uri);
    this.changed.set(uri, {document, changes: [...(before ? before.changes : []), ...changes]});
    clearTimeout(this.timer);
    this.timer = setTimeout(() => this.flush(), DELAY);
  }

  flush() {
    clearTimeout(this.timer);
    for (const [uri, {document, changes}] of this.changed) {
      const parts = changes.map(it => ({range: exports.range(it.range), text: it.text}));
      const contentChanges = this.isIncremental ? parts : [{text: document.getText()}];
      this.tell("textDocument/didChange", {textDocument: {uri, version: document.version}, contentChanges});
    }
    this.changed.clear();
  }

  close(document) {
    this.flush();
    this.tell("textDocument/didClose", {textDocument: {uri: document.uri.toString()}});
  }
};
