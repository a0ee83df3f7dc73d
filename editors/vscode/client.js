// A client of `mm lsp`: it starts the server, tells it of sources, and gives the editor what it answers. It speaks the
// protocol itself, so that the extension needs no package of npm.
"use strict";

const { spawn } = require("child_process");
const vscode = require("vscode");

const LANGUAGE = "mmachine-asm";
const KINDS = { 6: "Variable", 9: "Module", 12: "Value", 14: "Keyword", 18: "Reference", 20: "EnumMember" };

// Messages with their length before them, taken from a stream of bytes.
class Frames {
  constructor(take) {
    this.take = take;
    this.rest = Buffer.alloc(0);
  }

  push(bytes) {
    this.rest = Buffer.concat([this.rest, bytes]);
    for (;;) {
      const end = this.rest.indexOf("\r\n\r\n");
      if (end < 0) return;
      const length = Number((/content-length: *(\d+)/i.exec(this.rest.toString("latin1", 0, end)) || [])[1]);
      if (!Number.isInteger(length)) throw new Error("mm lsp sends something else than messages");
      if (this.rest.length < end + 4 + length) return;
      const text = this.rest.toString("utf8", end + 4, end + 4 + length);
      this.rest = this.rest.subarray(end + 4 + length);
      this.take(JSON.parse(text));
    }
  }

  static bytes(form) {
    const data = Buffer.from(JSON.stringify(form), "utf8");
    return Buffer.concat([Buffer.from(`Content-Length: ${data.length}\r\n\r\n`, "latin1"), data]);
  }
}

const placeOf = ({ line, character }) => new vscode.Position(line, character);
const rangeOf = ({ start, end }) => new vscode.Range(placeOf(start), placeOf(end));
const locationOf = ({ uri, range }) => new vscode.Location(vscode.Uri.parse(uri), rangeOf(range));

function symbolOf(it) {
  const kind = it.kind === 3 ? vscode.SymbolKind.Namespace : vscode.SymbolKind.Constant;
  const made = new vscode.DocumentSymbol(it.name, "", kind, rangeOf(it.range), rangeOf(it.selectionRange));
  made.children = (it.children || []).map(symbolOf);
  return made;
}

function itemOf(it) {
  const made = new vscode.CompletionItem(it.label, vscode.CompletionItemKind[KINDS[it.kind]]);
  made.detail = it.detail;
  made.range = rangeOf(it.textEdit.range);
  made.insertText = it.textEdit.newText;
  return made;
}

class Client {
  constructor(program) {
    this.waiting = new Map();
    this.number = 0;
    this.found = vscode.languages.createDiagnosticCollection("mm");
    this.things = [this.found];
    this.process = spawn(program, ["lsp"], { stdio: ["pipe", "pipe", "ignore"] });
    this.process.on("error", (error) =>
      this.over(`mm lsp cannot be started: ${error.message}. The setting mmachine.mm says where mm is.`));
    this.process.on("exit", () => this.over());
    this.process.stdin.on("error", () => this.over());
    const frames = new Frames((form) => this.take(form));
    this.process.stdout.on("data", (bytes) => {
      try {
        frames.push(bytes);
      } catch (error) {
        this.over(error.message);
      }
    });
  }

  // Nothing more is asked; who waits for an answer gets none.
  over(why) {
    if (why && !this.ended) vscode.window.showWarningMessage(why);
    this.ended = true;
    this.waiting.forEach((done) => done(null));
    this.waiting.clear();
  }

  send(form) {
    if (!this.ended) this.process.stdin.write(Frames.bytes({ jsonrpc: "2.0", ...form }));
  }

  ask(method, params) {
    if (this.ended) return Promise.resolve(null);
    const id = ++this.number;
    return new Promise((done) => {
      this.waiting.set(id, done);
      this.send({ id, method, params });
    });
  }

  take({ id, method, params, result }) {
    if (method === "textDocument/publishDiagnostics") {
      this.found.set(vscode.Uri.parse(params.uri), params.diagnostics.map((it) => {
        const made = new vscode.Diagnostic(rangeOf(it.range), it.message, vscode.DiagnosticSeverity.Error);
        made.source = it.source;
        return made;
      }));
    } else if (this.waiting.has(id)) {
      const done = this.waiting.get(id);
      this.waiting.delete(id);
      done(result === undefined ? null : result);
    }
  }

  at(document, position) {
    return { textDocument: { uri: document.uri.toString() }, position: { line: position.line,
      character: position.character } };
  }

  async start() {
    await this.ask("initialize", { processId: process.pid, rootUri: null, capabilities: {} });
    this.send({ method: "initialized", params: {} });
    const { workspace, languages } = vscode, selector = { language: LANGUAGE };
    const ours = (document) => document.languageId === LANGUAGE;
    const open = (document) => ours(document) && this.send({ method: "textDocument/didOpen", params: { textDocument: {
      uri: document.uri.toString(), languageId: LANGUAGE, version: document.version, text: document.getText() } } });
    this.things.push(
      workspace.onDidOpenTextDocument(open),
      workspace.onDidChangeTextDocument(({ document }) => ours(document)
        && this.send({ method: "textDocument/didChange",
        params: { textDocument: { uri: document.uri.toString(), version: document.version },
          contentChanges: [{ text: document.getText() }] } })),
      workspace.onDidCloseTextDocument((document) => ours(document) && this.send({ method: "textDocument/didClose",
        params: { textDocument: { uri: document.uri.toString() } } })),
      languages.registerHoverProvider(selector, { provideHover: async (document, position) => {
        const found = await this.ask("textDocument/hover", this.at(document, position));
        return found && new vscode.Hover(new vscode.MarkdownString(found.contents.value), rangeOf(found.range));
      } }),
      languages.registerDefinitionProvider(selector, { provideDefinition: async (document, position) => {
        const found = await this.ask("textDocument/definition", this.at(document, position));
        return found && locationOf(found);
      } }),
      languages.registerReferenceProvider(selector, { provideReferences: async (document, position) =>
        ((await this.ask("textDocument/references", this.at(document, position))) || []).map(locationOf) }),
      languages.registerDocumentSymbolProvider(selector, { provideDocumentSymbols: async (document) =>
        ((await this.ask("textDocument/documentSymbol", { textDocument: { uri: document.uri.toString() } }))
          || []).map(symbolOf) }),
      languages.registerCompletionItemProvider(selector, { provideCompletionItems: async (document, position) =>
        ((await this.ask("textDocument/completion", this.at(document, position))) || []).map(itemOf) }, "."),
    );
    workspace.textDocuments.forEach(open);
  }

  // Ends the server as the protocol has it.
  async dispose() {
    this.things.forEach((thing) => thing.dispose());
    await this.ask("shutdown", null);
    this.send({ method: "exit" });
    this.process.stdin.end();
    this.ended = true;
  }
}

module.exports = { Client, Frames, LANGUAGE };
