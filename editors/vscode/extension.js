// mm in Visual Studio Code: sources are known by their contents, `mm lsp` and `mm dap` are started, and the commands of a
// source are tasks, each in a terminal.
"use strict";

const vscode = require("vscode");
const { Client, LANGUAGE } = require("./client.js");

const TYPE = "mm";
const MATCHERS = ["$mm", "$mm-fault"];
// The commands that are offered, and what they are called. Any other is a task of the user's own, in tasks.json.
const OFFERED = [
  ["run", "run this file"],
  ["debug", "debug this file"],
  ["trace", "trace this file"],
  ["audit", "audit this file"],
  ["explore", "look at every schedule of this file"],
];
// A line that only a source of mmachine has; so many of the first lines are looked at.
const OURS = /^\s*(?:[A-Za-z_]\w*\s*:\s*)?\.(?:segment\s+[A-Za-z_]\w*\s+|thread\s+\d+\s+)(?:0x[0-9A-Fa-f]+|\d+)/;
const LOOKED_AT = 200;

const setting = (name) => vscode.workspace.getConfiguration("mmachine").get(name);
const program = () => setting("mm") || "mm";

function taskOf(definition, name) {
  const words = [definition.command, ...(definition.words || ["${file}"])];
  const execution = new vscode.ProcessExecution(program(), words);
  const task = new vscode.Task(definition, vscode.TaskScope.Workspace, name, TYPE, execution, MATCHERS);
  if (definition.command === "run") {
    task.group = vscode.TaskGroup.Build;
  }
  const terminal = { reveal: vscode.TaskRevealKind.Always, focus: definition.command === "debug", clear: true };
  task.presentationOptions = terminal;
  return task;
}

// Whether a text is one of ours, by what it has.
const isOurs = (text) => text.split("\n", LOOKED_AT).some((line) => OURS.test(line));

// Takes a file *.asm for a source of mmachine, as the setting says. What the user chose himself stays.
function claim(document) {
  const how = setting("claim") || "contents";
  if (how === "never" || document.languageId === LANGUAGE || !document.fileName.endsWith(".asm")) return false;
  const chosen = vscode.workspace.getConfiguration("files").get("associations") || {};
  if (Object.keys(chosen).some((pattern) => pattern.endsWith(".asm"))) return false;
  if (how !== "always" && !isOurs(document.getText())) return false;
  vscode.languages.setTextDocumentLanguage(document, LANGUAGE);
  return true;
}

// What is debugged if nothing was said: the file of the editor.
function configured(folder, configuration) {
  if (!configuration.type && !configuration.request) {
    const editor = vscode.window.activeTextEditor;
    if (!editor || editor.document.languageId !== LANGUAGE) return configuration;
    Object.assign(configuration, { type: TYPE, request: "launch", name: "Debug this source by mm" });
  }
  if (!configuration.program && !configuration.files) configuration.program = "${file}";
  return configuration;
}

function activate(context) {
  const provider = {
    provideTasks: () => OFFERED.map(([command, name]) => taskOf({ type: TYPE, command }, name)),
    resolveTask: (task) => (task.definition.command ? taskOf(task.definition, task.name) : undefined),
  };
  const adapter = { createDebugAdapterDescriptor: () => new vscode.DebugAdapterExecutable(program(), ["dap"]) };
  let client = null;
  const begin = (document) => {
    claim(document);
    if (client || document.languageId !== LANGUAGE) return;
    client = new Client(program());
    context.subscriptions.push(client);
    client.start();
  };
  context.subscriptions.push(
    vscode.tasks.registerTaskProvider(TYPE, provider),
    vscode.debug.registerDebugAdapterDescriptorFactory(TYPE, adapter),
    vscode.debug.registerDebugConfigurationProvider(TYPE, { resolveDebugConfiguration: configured }),
    vscode.workspace.onDidOpenTextDocument(begin),
  );
  vscode.workspace.textDocuments.forEach(begin);
}

module.exports = { activate, deactivate() {}, isOurs };
