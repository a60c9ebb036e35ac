// A stand-in for the module `vscode`, as far as the extension uses it: values, texts, what was registered,
// what was shown, and settings. `at` is for tests: it opens and edits texts, and clicks on buttons.
class EventEmitter {
  constructor() {
    this.listeners = [];
    this.event = it => {
      this.listeners.push(it);
      return {dispose: () => { this.listeners = this.listeners.filter(other => other !== it); }};
    };
  }
  fire(it) { for (const listener of [...this.listeners]) listener(it); }
}
class Position {
  constructor(line, character) {
    if (!Number.isInteger(line) || !Number.isInteger(character)) throw new TypeError("no position");
    Object.assign(this, {line, character});
  }
}
class Range {
  constructor(start, end) {
    if (!(start instanceof Position) || !(end instanceof Position)) throw new TypeError("no range");
    Object.assign(this, {start, end});
  }
}
class Uri {
  constructor(text) { this.text = text; }
  static parse(text) { return new Uri(text); }
  static file(path) { return new Uri(`file://${encodeURI(path)}`); }
  toString() { return this.text; }
}
class MarkdownString {
  constructor(value = "") { this.value = value; }
  appendText(text) {
    this.value += text;
    return this;
  }
}
class CodeActionKind {
  constructor(value) { this.value = value; }
  append(part) { return new CodeActionKind(this.value ? `${this.value}.${part}` : part); }
}
CodeActionKind.Empty = new CodeActionKind("");

/** A class whose members are the arguments, by these names. */
const record = (...names) => class {
  constructor(...values) { names.forEach((name, i) => { this[name] = values[i]; }); }
};
class WorkspaceEdit {
  constructor() { this.edits = []; }
  replace(uri, range, text) { this.edits.push({uri, range, text}); }
}
class Document {
  constructor(uri, text) { Object.assign(this, {uri, text, version: 1, languageId: "mos65"}); }
  getText() { return this.text; }
}

const settings = {}, providers = {}, shown = [], ran = [], clicks = [], marks = new Map(), documents = [], commands = {};
const [opened, closed, changed, configured] = [0, 0, 0, 0].map(() => new EventEmitter());

const offset = (text, {line, character}) =>
  text.split("\n").slice(0, line).reduce((sum, it) => sum + it.length + 1, 0) + character;
const applied = (text, {range, text: part}) =>
  text.slice(0, offset(text, range.start)) + part + text.slice(offset(text, range.end));

function register(name) {
  return (...what) => {
    const [provider, ...more] = name === "WorkspaceSymbol" ? what : what.slice(1);
    providers[name] = {...provider, more};
    return {dispose: () => { delete providers[name]; }};
  };
}
const names = ["Hover", "Definition", "Reference", "DocumentHighlight", "DocumentSymbol", "WorkspaceSymbol",
  "SignatureHelp", "InlayHints", "FoldingRange", "Rename", "CompletionItem", "DocumentSemanticTokens", "CodeActions"];

module.exports = {
  EventEmitter, Position, Range, Uri, MarkdownString, CodeActionKind, WorkspaceEdit,
  Location: record("uri", "range"), Diagnostic: record("range", "message", "severity"), Hover: record("contents", "range"),
  DiagnosticRelatedInformation: record("location", "message"), CompletionItem: record("label", "kind"),
  DocumentSymbol: record("name", "detail", "kind", "range", "selectionRange"), CodeAction: record("title", "kind"),
  SymbolInformation: record("name", "kind", "containerName", "location"), SignatureHelp: record(),
  SignatureInformation: record("label", "documentation"), ParameterInformation: record("label", "documentation"),
  InlayHint: record("position", "label", "kind"), FoldingRange: record("start", "end"),
  DocumentHighlight: record("range", "kind"), SemanticTokens: record("data", "resultId"),
  SemanticTokensLegend: record("tokenTypes", "tokenModifiers"), DebugAdapterInlineImplementation: record("implementation"),
  languages: {
    createDiagnosticCollection: () => ({
      set: (uri, list) => marks.set(uri.toString(), list), delete: uri => marks.delete(uri.toString()),
      clear: () => marks.clear(), dispose: () => marks.clear(),
    }),
    ...Object.fromEntries(names.map(it => [`register${it}Provider`, register(it)])),
  },
  workspace: {
    textDocuments: documents, getConfiguration: section => ({get: name => settings[`${section}.${name}`]}),
    onDidOpenTextDocument: opened.event, onDidCloseTextDocument: closed.event,
    onDidChangeTextDocument: changed.event, onDidChangeConfiguration: configured.event,
  },
  window: {
    createOutputChannel: () => ({appendLine: () => {}, dispose: () => {}}),
    showErrorMessage: async (text, ...buttons) => {
      shown.push(text);
      return buttons.includes(clicks[0]) ? clicks.shift() : undefined;
    },
  },
  commands: {
    executeCommand: async (...words) => { ran.push(words); },
    registerCommand: (name, what) => {
      commands[name] = what;
      return {dispose: () => { delete commands[name]; }};
    },
  },
  debug: {
    registerDebugConfigurationProvider: (_, it) => {
      providers.configuration = it;
      return {dispose: () => {}};
    },
    registerDebugAdapterDescriptorFactory: (_, it) => {
      providers.adapter = it;
      return {dispose: () => {}};
    },
  },
  at: {
    providers, shown, ran, clicks, commands,
    marks: document => marks.get(document.uri.toString()),
    set(name, value) {
      settings[name] = value;
      configured.fire({affectsConfiguration: section => name === section || name.startsWith(`${section}.`)});
    },
    open(path, text) {
      const document = new Document(Uri.file(path), text);
      documents.push(document);
      opened.fire(document);
      return document;
    },
    /** Puts a text in place of what is between two positions, as typing does. */
    edit(document, range, text) {
      document.text = applied(document.text, {range, text});
      document.version += 1;
      changed.fire({document, contentChanges: [{range, text}]});
    },
    close(document) {
      documents.splice(documents.indexOf(document), 1);
      closed.fire(document);
    },
    /** A text after the edits, from the last to the first. */
    after(document, {edits}) {
      const mine = edits.filter(it => it.uri.toString() === document.uri.toString());
      mine.sort((a, b) => offset(document.text, b.range.start) - offset(document.text, a.range.start));
      return mine.reduce(applied, document.text);
    },
  },
};
