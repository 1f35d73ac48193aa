// Runs the extension of editors/vscode over a stand-in for the editor, with a real server: node editor.js PROGRAM FILE
"use strict";
const assert = require("assert");
const fs = require("fs");
const Module = require("module");
const path = require("path");

class Kept {
  constructor(...parts) {
    this.parts = parts;
  }
}

const providers = {}, told = {}, warnings = [], informations = [], commands = {}, panel = { webview: {}, onDidDispose: () => {}, reveal: () => {} };
const register = kind => (languages, provider) => ((providers[kind] = provider), new Kept());
const listen = kind => call => ((told[kind] = call), new Kept());
const uri = text => ({ toString: () => text });
const [program, file] = process.argv.slice(2);
const proofs = file.replace(/mm0$/, "proofs");
const source = { languageId: "proofs", version: 1, uri: uri(`file://${proofs}`), getText: () => fs.readFileSync(proofs, "utf8").replace("(h,", "(sorry,") };
const editor = { document: source, selection: { active: { line: 3, character: 10 } } };
const document = { languageId: "mm0", version: 1, uri: uri(`file://${file}`), getText: () => fs.readFileSync(file, "utf8") };

const vscode = {
  Range: Kept, Location: Kept, Diagnostic: Kept, CompletionItem: Kept, DocumentSymbol: Kept, Hover: Kept, MarkdownString: Kept,
  CodeLens: Kept, CodeAction: Kept, CodeActionKind: { QuickFix: "quickfix" }, ViewColumn: { Beside: -2 }, Uri: { parse: uri },
  WorkspaceEdit: class {
    replace(...parts) {
      this.parts = parts;
    }
  },
  commands: { registerCommand: (name, call) => ((commands[name] = call), new Kept()) },
  languages: {
    createDiagnosticCollection: () => ({ set: () => {} }),
    registerHoverProvider: register("hover"), registerDefinitionProvider: register("definition"),
    registerReferenceProvider: register("references"), registerDocumentSymbolProvider: register("symbols"),
    registerCompletionItemProvider: register("completion"), registerCodeLensProvider: register("lenses"),
    registerCodeActionsProvider: register("actions"),
  },
  window: {
    showWarningMessage: text => warnings.push(text), showInformationMessage: text => informations.push(text), createWebviewPanel: () => panel, activeTextEditor: editor,
    onDidChangeTextEditorSelection: listen("selected"),
  },
  workspace: {
    textDocuments: [document, source],
    getConfiguration: () => ({ get: () => program }),
    onDidOpenTextDocument: listen("opened"), onDidChangeTextDocument: listen("changed"),
    onDidSaveTextDocument: listen("saved"), onDidCloseTextDocument: listen("closed"),
  },
};
const load = Module._load;
Module._load = (name, ...rest) => (name === "vscode" ? vscode : load(name, ...rest));
const folder = path.join(__dirname, "../../../editors/vscode");
const extension = require(path.join(folder, "extension.js"));
const read = name => JSON.parse(fs.readFileSync(path.join(folder, name), "utf8"));

/** The parts of a line to which a grammar gives names, each with the last part of its name but one. */
function colours(grammar, line) {
  const made = [];
  for (let at = 0; at < line.length; ) {
    const found = grammar.patterns.map(it => ({ it, hit: match(it.match || it.begin, line, at) })).filter(({ hit }) => hit);
    if (!found.length) break;
    const { it, hit } = found.reduce((one, other) => (other.hit.index < one.hit.index ? other : one));
    const inner = hit.index + hit[0].length, last = it.begin ? match(it.end, line, inner) : hit;
    const end = last ? last.index + last[0].length : line.length;
    for (const [part, name] of it.captures ? Object.entries(it.captures).map(([i, { name }]) => [hit[i], name]) : [[line.slice(hit.index, end), it.name]]) {
      made.push([part, name.split(".").at(-2)]);
    }
    at = Math.max(end, at + 1);
  }
  return made;
}

function match(pattern, line, at) {
  const finder = new RegExp(pattern, "gm");
  finder.lastIndex = at;
  return finder.exec(line);
}

/** What package.json names is there, and the grammars give the parts of a line their names. */
function described() {
  const { contributes, activationEvents, main } = read("package.json");
  const ids = contributes.languages.map(it => it.id);
  assert.deepStrictEqual(activationEvents, ids.map(it => `onLanguage:${it}`));
  assert.deepStrictEqual(contributes.grammars.map(it => it.language), ids);
  assert.deepStrictEqual(contributes.commands.map(it => it.command), Object.keys(commands));
  assert(fs.existsSync(path.join(folder, main)));
  contributes.languages.forEach(it => assert.strictEqual(read(it.configuration).comments.lineComment, "--"));
  const [spec, text] = contributes.grammars.map(it => read(it.path));
  assert.deepStrictEqual(colours(spec, "axiom gen (p: wff): $ p $ > $ A. x p $; -- all"),
    [["axiom", "other"], ["$ p $", "math"], ["$ A. x p $", "math"], ["-- all", "double-dash"]]);
  assert.deepStrictEqual(colours(spec, "theorem t = have k = sorry;"),
    [["theorem", "other"], ["have", "control"], ["sorry", "control"]]);
  assert.deepStrictEqual(colours(text, "(theorem t () (:sorry p)) -- p"),
    [["theorem", "other"], ["t", "function"], [":sorry", "deprecated"], ["-- p", "double-dash"]]);
}

async function main() {
  const subscriptions = [];
  await extension.activate({ subscriptions });
  const at = { line: 8, character: 7 };
  const hover = await providers.hover.provideHover(document, at);
  assert.match(hover.parts[0].parts[0], /axiom eq_refl \(a: elt\): \$ a = a \$;/);
  const [definition] = await providers.definition.provideDefinition(document, at);
  assert.strictEqual(path.basename(definition.parts[0].toString()), "monoid.mmu");
  const references = await providers.references.provideReferences(document, at, { includeDeclaration: true });
  assert.strictEqual(references.length, 4);
  const symbols = await providers.symbols.provideDocumentSymbols(document);
  assert.deepStrictEqual(symbols.map(it => it.parts[0]), ["wff", "elt", "eq", "mul", "eq_refl", "eq_symm", "mul_eq", "eq_left"]);
  const items = await providers.completion.provideCompletionItems(document, { line: 12, character: 50 });
  assert(items.some(it => it.parts[0] === "mul"));
  await commands["mz.goal"]();
  assert.match(panel.webview.html, /goal +a = b\n +visible +h: a = b/);
  const lenses = await providers.lenses.provideCodeLenses(source);
  const titles = await Promise.all(lenses.map(async it => (await providers.lenses.resolveCodeLens(it)).command.title));
  assert.deepStrictEqual(titles, ["k: c = c", "⊢ a = b"]);
  const place = { start: editor.selection.active, end: editor.selection.active };
  const [action] = await providers.actions.provideCodeActions(source, place);
  const { edit } = await providers.actions.resolveCodeAction(action);
  assert.strictEqual(edit.parts[2], "h");
  assert.match(informations.join(), /^Found: 0 citations tried, all up to depth 0$/);
  described();
  const steps = await providers.completion.provideCompletionItems(source, editor.selection.active);
  assert.strictEqual(steps.reduce((a, b) => (b.sortText < a.sortText ? b : a)).parts[0], "h");
  told.closed(document);
  await extension.deactivate();
  console.log("the extension answers");
}

main().catch(fault => {
  console.error(fault);
  process.exit(1);
});
