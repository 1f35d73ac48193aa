// Speaks with the language server `mz serve`. It needs nothing but the editor and the program.
"use strict";
const { spawn } = require("child_process");
const vscode = require("vscode");

const languages = ["mm0", "mmu", "proofs"];

/** Messages to and from the server: JSON with a head that has its length. */
class Connection {
  constructor(process, notice) {
    this.process = process;
    this.notice = notice;
    this.waiting = new Map();
    this.count = 0;
    this.bytes = Buffer.alloc(0);
    process.stdout.on("data", part => this.take(part));
  }

  send(message) {
    const text = Buffer.from(JSON.stringify({ jsonrpc: "2.0", ...message }), "utf8");
    this.process.stdin.write(`Content-Length: ${text.length}\r\n\r\n`);
    this.process.stdin.write(text);
  }

  tell(method, params) {
    this.send({ method, params });
  }

  ask(method, params) {
    const id = ++this.count;
    this.send({ id, method, params });
    return new Promise((resolve, reject) => this.waiting.set(id, { resolve, reject }));
  }

  take(part) {
    this.bytes = Buffer.concat([this.bytes, part]);
    for (;;) {
      const head = this.bytes.indexOf("\r\n\r\n");
      if (head < 0) return;
      const length = Number(/Content-Length: (\d+)/i.exec(this.bytes.toString("ascii", 0, head))[1]);
      if (this.bytes.length < head + 4 + length) return;
      const message = JSON.parse(this.bytes.toString("utf8", head + 4, head + 4 + length));
      this.bytes = this.bytes.subarray(head + 4 + length);
      this.heard(message);
    }
  }

  heard(message) {
    if (message.id === undefined) {
      this.notice(message.method, message.params);
      return;
    }
    const { resolve, reject } = this.waiting.get(message.id);
    this.waiting.delete(message.id);
    if (message.error) reject(new Error(message.error.message));
    else resolve(message.result);
  }
}

const range = it => new vscode.Range(it.start.line, it.start.character, it.end.line, it.end.character);
const location = it => new vscode.Location(vscode.Uri.parse(it.uri), range(it.range));
const named = document => ({ textDocument: { uri: document.uri.toString() } });
const placed = (document, { line, character }) => ({ ...named(document), position: { line, character } });

function diagnostic(it) {
  const made = new vscode.Diagnostic(range(it.range), it.message, it.severity - 1); // the protocol counts from 1
  made.source = it.source;
  made.code = it.code;
  return made;
}

function completion(it) {
  const made = new vscode.CompletionItem(it.label, it.kind - 1);
  made.detail = it.detail;
  made.documentation = it.documentation;
  made.sortText = it.sortText;
  made.asked = it; // what the server is asked for more with
  return made;
}

function lens(it) {
  const made = new vscode.CodeLens(range(it.range));
  made.asked = it;
  return made;
}

function action(it) {
  const made = new vscode.CodeAction(it.title, vscode.CodeActionKind.QuickFix);
  made.asked = it;
  return made;
}

/** The edits of an answer, as the editor has them. */
function edits({ changes }) {
  const made = new vscode.WorkspaceEdit();
  for (const [uri, list] of Object.entries(changes)) {
    for (const it of list) made.replace(vscode.Uri.parse(uri), range(it.range), it.newText);
  }
  return made;
}

function symbol(it) {
  return new vscode.DocumentSymbol(it.name, it.detail, it.kind - 1, range(it.range), range(it.selectionRange));
}

function hover(it) {
  return it ? new vscode.Hover(new vscode.MarkdownString(it.contents.value), range(it.range)) : undefined;
}

function register(server) {
  const ask = server.ask.bind(server);
  const all = of => list => (list || []).map(of);
  return [
    vscode.languages.registerHoverProvider(languages, {
      provideHover: (document, at) => ask("textDocument/hover", placed(document, at)).then(hover) }),
    vscode.languages.registerDefinitionProvider(languages, {
      provideDefinition: (document, at) => ask("textDocument/definition", placed(document, at)).then(all(location)) }),
    vscode.languages.registerReferenceProvider(languages, {
      provideReferences: (document, at, context) =>
        ask("textDocument/references", { ...placed(document, at), context }).then(all(location)) }),
    vscode.languages.registerDocumentSymbolProvider(languages, {
      provideDocumentSymbols: document => ask("textDocument/documentSymbol", named(document)).then(all(symbol)) }),
    vscode.languages.registerCompletionItemProvider(languages, {
      provideCompletionItems: (document, at) => ask("textDocument/completion", placed(document, at)).then(all(completion)),
      resolveCompletionItem: async item => {
        if (!item.detail && item.asked.data) item.detail = (await ask("completionItem/resolve", item.asked)).detail;
        return item;
      } },
      "(", ":", "$", ","),
    vscode.languages.registerCodeLensProvider("proofs", {
      provideCodeLenses: document => ask("textDocument/codeLens", named(document)).then(all(lens)),
      resolveCodeLens: async it => {
        it.command = (await ask("codeLens/resolve", it.asked)).command;
        return it;
      } }),
    vscode.languages.registerCodeActionsProvider("proofs", {
      provideCodeActions: (document, at) => ask("textDocument/codeAction",
        { ...named(document), range: at, context: { diagnostics: [] } }).then(all(action)),
      resolveCodeAction: async it => {
        const { edit } = await ask("codeAction/resolve", it.asked);
        if (edit) it.edit = edits(edit);
        return it;
      } }),
  ];
}

/** The panel beside the text: what is to be proved where the cursor is, and what the step there does. */
class Goals {
  constructor(server) {
    this.server = server;
    this.asked = 0;
  }

  open() {
    if (this.panel) {
      this.panel.reveal(undefined, true);
    } else {
      const column = { viewColumn: vscode.ViewColumn.Beside, preserveFocus: true };
      this.panel = vscode.window.createWebviewPanel("mz.goal", "Goal", column, {});
      this.panel.onDidDispose(() => (this.panel = undefined));
    }
    return this.show(vscode.window.activeTextEditor);
  }

  async show(editor) {
    if (!this.panel || !editor || editor.document.languageId !== "proofs") return;
    const number = ++this.asked;
    const found = await this.server.ask("mz/goal", placed(editor.document, editor.selection.active));
    if (number !== this.asked || !this.panel) return;
    const text = found ? found.text : "There is no proof here.";
    this.panel.webview.html = `<pre>${text.replace(/[&<>]/g, it => `&#${it.charCodeAt(0)};`)}</pre>`;
  }

  register() {
    return [
      vscode.commands.registerCommand("mz.goal", () => this.open()),
      vscode.window.onDidChangeTextEditorSelection(({ textEditor }) => this.show(textEditor)),
    ];
  }
}

/** Notifies the server of documents that are opened, changed, saved and closed. */
function follow(server) {
  const ours = document => languages.includes(document.languageId);
  const open = document => {
    if (!ours(document)) return;
    const { languageId, version } = document;
    server.tell("textDocument/didOpen",
      { textDocument: { uri: document.uri.toString(), languageId, version, text: document.getText() } });
  };
  vscode.workspace.textDocuments.forEach(open);
  return [
    vscode.workspace.onDidOpenTextDocument(open),
    vscode.workspace.onDidChangeTextDocument(({ document }) => ours(document) && server.tell("textDocument/didChange", {
      textDocument: { uri: document.uri.toString(), version: document.version },
      contentChanges: [{ text: document.getText() }] })),
    vscode.workspace.onDidSaveTextDocument(document => ours(document) && server.tell("textDocument/didSave", named(document))),
    vscode.workspace.onDidCloseTextDocument(document => ours(document) && server.tell("textDocument/didClose", named(document))),
  ];
}

let server;

async function activate(context) {
  const program = vscode.workspace.getConfiguration("mz").get("program");
  const process = spawn(program, ["serve"], { stdio: ["pipe", "pipe", "ignore"] });
  process.on("error", fault => vscode.window.showWarningMessage(`${program} serve can't be started: ${fault.message}`));
  const found = vscode.languages.createDiagnosticCollection("mz");
  server = new Connection(process, (method, params) => {
    if (method === "textDocument/publishDiagnostics") found.set(vscode.Uri.parse(params.uri), params.diagnostics.map(diagnostic));
    if (method === "window/showMessage") {
      (params.type < 3 ? vscode.window.showWarningMessage : vscode.window.showInformationMessage)(params.message);
    }
  });
  await server.ask("initialize", { processId: null, rootUri: null, capabilities: {} });
  server.tell("initialized", {});
  context.subscriptions.push(found, ...register(server), ...follow(server), ...new Goals(server).register());
}

async function deactivate() {
  if (!server) return;
  await server.ask("shutdown", null);
  server.tell("exit", {});
}

module.exports = { activate, deactivate };
