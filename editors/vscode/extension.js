// The extension: it starts `mos65 lsp` when the first source is opened, again when another program is
// set, tells it other settings, and says so where that fails. Debugging is in debugger.js. It needs no package.
const vscode = require("vscode");
const program = require("./program.js"), features = require("./features.js"), debuggers = require("./debugger.js");
const {Server, LANGUAGE} = require("./server.js");

const AGAIN = "Restart";
let server, registered = [], marks, log;

const isOurs = document => document.languageId === LANGUAGE;

function told(method, params) {
  if (method === "textDocument/publishDiagnostics")
    marks.set(vscode.Uri.parse(params.uri), params.diagnostics.map(features.diagnostic));
  if (method === "window/logMessage" || method === "window/showMessage") log.appendLine(params.message);
  if (method === "window/showMessage") vscode.window.showErrorMessage(`mos65: ${params.message}`);
}

/** The server has ended. Unless it was told to, that is said. */
async function ended(which, status, errors) {
  if (which !== server) return;
  forget();
  log.appendLine(`mos65 lsp: ${status} ${errors}`);
  const text = `mos65: the language server has ended (${status})${errors ? `: ${errors}` : ""}`;
  if (await vscode.window.showErrorMessage(text, AGAIN) === AGAIN) await restart();
}

function forget() {
  server = undefined;
  registered.forEach(it => it.dispose());
  registered = [];
  marks.clear();
}

async function start() {
  const file = program.found();
  if (!file) return program.complainOfNone();
  const begun = new Server(file, program.options(), {told, ended: (...how) => ended(begun, ...how)});
  server = begun;
  const answers = await begun.begin();
  if (!answers || server !== begun) return undefined;
  registered = features.register(begun);
  vscode.workspace.textDocuments.filter(isOurs).forEach(it => begun.open(it));
  return undefined;
}

function stop() {
  const old = server;
  forget();
  return old ? old.stop() : undefined;
}

/** Starts another server at once, while the old one ends. */
function restart() {
  stop();
  return start();
}

/** Other settings are told to the server; it is started again where it does not run, or is another program. */
function configured(change) {
  if (!change.affectsConfiguration("mos65")) return undefined;
  if (change.affectsConfiguration("mos65.path") || !server || !server.capabilities) return restart();
  return server.configure(program.options());
}

/** Calls `what` with a document that is a source, where the server has begun. */
const withServer = what => (document, ...more) => {
  if (isOurs(document) && server && server.capabilities) what(document, ...more);
};

function listeners() {
  const {workspace} = vscode;
  return [
    workspace.onDidOpenTextDocument(withServer(it => server.open(it))),
    workspace.onDidCloseTextDocument(withServer(it => {
      server.close(it);
      marks.delete(it.uri);
    })),
    workspace.onDidChangeTextDocument(({document, contentChanges}) => {
      if (contentChanges.length) withServer(it => server.change(it, contentChanges))(document);
    }),
    workspace.onDidChangeConfiguration(configured),
  ];
}

exports.activate = context => {
  marks = vscode.languages.createDiagnosticCollection(LANGUAGE);
  log = vscode.window.createOutputChannel("mos65");
  const restarts = vscode.commands.registerCommand("mos65.restart", restart);
  context.subscriptions.push(marks, log, restarts, ...listeners(), ...debuggers.register());
  return start();
};

exports.deactivate = stop;
