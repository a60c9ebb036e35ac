// What the server answers, as VS Code wants it: each provider is registered where the server serves it.
const vscode = require("vscode");
const {LANGUAGE, range: sentRange} = require("./server.js");

const {languages: has} = vscode;

// ---- values of the protocol as values of VS Code; kinds begin with 1 there, and with 0 here

const position = it => new vscode.Position(it.line, it.character);
const range = it => new vscode.Range(position(it.start), position(it.end));
const uri = it => vscode.Uri.parse(it);
const all = (list, to) => (list || []).map(to);
const kind = it => (it === undefined ? undefined : it - 1);

function text(it) {
  if (it === undefined || it === null) return undefined;
  if (it.kind === "markdown") return new vscode.MarkdownString(it.value);
  return new vscode.MarkdownString().appendText(typeof it === "string" ? it : it.value);
}

function location(it) {
  return it.targetUri
    ? new vscode.Location(uri(it.targetUri), range(it.targetSelectionRange))
    : new vscode.Location(uri(it.uri), range(it.range));
}

const locations = it => (it ? [it].flat().map(location) : []);

function diagnostic(it) {
  const made = new vscode.Diagnostic(range(it.range), it.message, kind(it.severity) || 0);
  Object.assign(made, {code: it.code, source: it.source, tags: it.tags});
  made.relatedInformation = all(it.relatedInformation,
    more => new vscode.DiagnosticRelatedInformation(location(more.location), more.message));
  return made;
}

const sentDiagnostic = it => ({
  range: sentRange(it.range), message: it.message, severity: it.severity + 1, code: it.code, source: it.source,
});

function workspaceEdit(it) {
  const made = new vscode.WorkspaceEdit();
  const files = it.documentChanges
    ? it.documentChanges.map(file => [file.textDocument.uri, file.edits])
    : Object.entries(it.changes || {});
  for (const [file, edits] of files)
    for (const edit of edits) made.replace(uri(file), range(edit.range), edit.newText);
  return made;
}

function completion(it) {
  const made = new vscode.CompletionItem(it.label, kind(it.kind));
  const {detail, sortText, filterText, preselect, insertText} = it;
  Object.assign(made, {detail, sortText, filterText, preselect, insertText, documentation: text(it.documentation)});
  if (it.textEdit) {
    made.insertText = it.textEdit.newText;
    made.range = range(it.textEdit.range || it.textEdit.replace);
  }
  made.received = it;
  return made;
}

function symbol(it) {
  if (it.location)
    return new vscode.SymbolInformation(it.name, kind(it.kind), it.containerName || "", location(it.location));
  const made = new vscode.DocumentSymbol(
    it.name, it.detail || "", kind(it.kind), range(it.range), range(it.selectionRange));
  made.children = all(it.children, symbol);
  return made;
}

function action(it) {
  const made = new vscode.CodeAction(it.title, vscode.CodeActionKind.Empty.append(it.kind || "quickfix"));
  if (it.edit) made.edit = workspaceEdit(it.edit);
  if (it.diagnostics) made.diagnostics = it.diagnostics.map(diagnostic);
  made.isPreferred = it.isPreferred;
  return made;
}

function signatures(it) {
  const made = new vscode.SignatureHelp();
  made.signatures = it.signatures.map(one => {
    const form = new vscode.SignatureInformation(one.label, text(one.documentation));
    form.parameters = all(one.parameters,
      part => new vscode.ParameterInformation(part.label, text(part.documentation)));
    return form;
  });
  made.activeSignature = it.activeSignature || 0;
  made.activeParameter = it.activeParameter || 0;
  return made;
}

function hint(it) {
  const label = typeof it.label === "string" ? it.label : it.label.map(part => part.value).join("");
  const made = new vscode.InlayHint(position(it.position), label, it.kind);
  Object.assign(made, {paddingLeft: it.paddingLeft, paddingRight: it.paddingRight, tooltip: text(it.tooltip)});
  return made;
}

const hover = it => new vscode.Hover([it.contents].flat().map(text), it.range && range(it.range));
const fold = it => new vscode.FoldingRange(it.startLine, it.endLine);
const highlight = it => new vscode.DocumentHighlight(range(it.range), kind(it.kind));

function renamed(it) {
  if (it.defaultBehavior) return undefined;
  return it.range ? {range: range(it.range), placeholder: it.placeholder} : range(it);
}

// ---- requests

/** What asks the server of this moment; a refusal is no answer, except of a rename, where it is shown. */
class Asker {
  constructor(server) { this.server = server; }

  ask(method, params, token) { return this.server.ask(method, params, token).catch(() => null); }

  /** Asks for something in a document, with more parameters. */
  async of(method, document, token, more, to) {
    const answer = await this.ask(`textDocument/${method}`, {textDocument: {uri: document.uri.toString()}, ...more}, token);
    return answer ? to(answer) : undefined;
  }

  /** Asks for something at a position of a document. */
  at(method, document, at, token, to, more = {}) {
    return this.of(method, document, token, {position: {line: at.line, character: at.character}, ...more}, to);
  }

  async rename(document, at, newName, token) {
    const params = {textDocument: {uri: document.uri.toString()}, position: {line: at.line, character: at.character}, newName};
    const answer = await this.server.ask("textDocument/rename", params, token);
    return answer ? workspaceEdit(answer) : undefined;
  }
}

const list = to => it => all(Array.isArray(it) ? it : it.items, to);

function renames(asker, option) {
  const provider = {provideRenameEdits: (document, at, name, token) => asker.rename(document, at, name, token)};
  if (option.prepareProvider)
    provider.prepareRename = async (document, at, token) => {
      const params = {textDocument: {uri: document.uri.toString()}, position: {line: at.line, character: at.character}};
      const answer = await asker.server.ask("textDocument/prepareRename", params, token);
      if (!answer) throw new Error("no name of the source stands here");
      return renamed(answer);
    };
  return has.registerRenameProvider(LANGUAGE, provider);
}

function completions(asker, option) {
  const provider = {
    provideCompletionItems: (document, at, token) =>
      asker.at("completion", document, at, token, list(completion)),
  };
  if (option.resolveProvider)
    provider.resolveCompletionItem = async (item, token) => {
      const answer = await asker.ask("completionItem/resolve", item.received, token);
      return answer ? completion(answer) : item;
    };
  return has.registerCompletionItemProvider(LANGUAGE, provider, ...(option.triggerCharacters || []));
}

function colours(asker, {legend}) {
  const provider = {
    provideDocumentSemanticTokens: (document, token) => asker.of("semanticTokens/full", document, token, {},
      it => new vscode.SemanticTokens(Uint32Array.from(it.data), it.resultId)),
  };
  const known = new vscode.SemanticTokensLegend(legend.tokenTypes, legend.tokenModifiers);
  return has.registerDocumentSemanticTokensProvider(LANGUAGE, provider, known);
}

function actions(asker) {
  return has.registerCodeActionsProvider(LANGUAGE, {
    provideCodeActions: (document, at, context, token) => asker.of("codeAction", document, token,
      {range: sentRange(at), context: {diagnostics: context.diagnostics.map(sentDiagnostic)}},
      list(action)),
  });
}

/** How each thing that a server may serve is registered, by the name that it has among capabilities. */
const PROVIDERS = {
  hoverProvider: asker => has.registerHoverProvider(LANGUAGE, {
    provideHover: (document, at, token) => asker.at("hover", document, at, token, hover)}),
  definitionProvider: asker => has.registerDefinitionProvider(LANGUAGE, {
    provideDefinition: (document, at, token) => asker.at("definition", document, at, token, locations)}),
  referencesProvider: asker => has.registerReferenceProvider(LANGUAGE, {
    provideReferences: (document, at, {includeDeclaration}, token) =>
      asker.at("references", document, at, token, locations, {context: {includeDeclaration}})}),
  documentHighlightProvider: asker => has.registerDocumentHighlightProvider(LANGUAGE, {
    provideDocumentHighlights: (document, at, token) =>
      asker.at("documentHighlight", document, at, token, list(highlight))}),
  documentSymbolProvider: asker => has.registerDocumentSymbolProvider(LANGUAGE, {
    provideDocumentSymbols: (document, token) => asker.of("documentSymbol", document, token, {}, list(symbol))}),
  workspaceSymbolProvider: asker => has.registerWorkspaceSymbolProvider({
    provideWorkspaceSymbols: async (query, token) =>
      all(await asker.ask("workspace/symbol", {query}, token), symbol)}),
  signatureHelpProvider: (asker, option) => has.registerSignatureHelpProvider(LANGUAGE, {
    provideSignatureHelp: (document, at, token) => asker.at("signatureHelp", document, at, token, signatures)},
    ...(option.triggerCharacters || [])),
  inlayHintProvider: asker => has.registerInlayHintsProvider(LANGUAGE, {
    provideInlayHints: (document, at, token) =>
      asker.of("inlayHint", document, token, {range: sentRange(at)}, list(hint))}),
  foldingRangeProvider: asker => has.registerFoldingRangeProvider(LANGUAGE, {
    provideFoldingRanges: (document, _, token) => asker.of("foldingRange", document, token, {}, list(fold))}),
  renameProvider: renames, completionProvider: completions, semanticTokensProvider: colours,
  codeActionProvider: actions,
};

/** Registers what a server serves. Each thing that is returned has to be disposed of at its end. */
exports.register = server => Object.entries(PROVIDERS)
  .filter(([name]) => server.capabilities[name])
  .map(([name, provider]) => provider(new Asker(server), server.capabilities[name]));

exports.diagnostic = diagnostic;
