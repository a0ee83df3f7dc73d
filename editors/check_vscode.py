"""The extension for Visual Studio Code, as `editors/check` tries it, without that editor: its JSON, its regular
expressions on our sources and on what `mm` says, its tasks in node with a stand-in for the editor, and its .vsix."""

import glob
import io
import json
import os
import re
import shutil
import subprocess
import sys
import tempfile
import xml.etree.ElementTree
import zipfile

TOP = os.path.dirname(os.path.dirname(os.path.abspath(__file__)))
FOLDER = os.path.join(TOP, "editors", "vscode")
sys.path.insert(0, TOP)

from mm.machine.program import find_program  # noqa: E402
from mm.packing.tree import of_folder  # noqa: E402
from mm.packing.vsix import vsix  # noqa: E402
from mm.source.lines import read_line  # noqa: E402
from mm.status import Stop  # noqa: E402

SOURCES = ("examples/*.asm", "examples/c/*.asm", "docs/course/*.asm", "docs/course/answers/*.asm")
# First lines by which a file of another name is known, and those of other assemblers.
FIRST_LINES = [
    (".segment hello 5", True),
    ("  .thread 0 0 none xu hello", True),
    ("; a source of mmachine", True),
    ("; a list of drivers", False),
    ("section .text", False),
    (".segmented", False),
]
# What a double click takes for one word.
WORDS = ["ld", "r15", ".segment", "next_one", "-12", "0x1040", "none"]
BAD_SOURCE = """; three mistakes
.segment a 5
  ld r2, 8(r1)
  MOV r1, r2
  nop $
"""
BAD_FAULTS = [(3, 10, "expected a register"), (4, 3, "there is no operation `MOV`"), (5, 7, "`$` cannot stand")]
# Lines of other tools of `mm`, and the place in them.
LINES = [
    ("/tmp/a b/x.c:1:27: error: use of undeclared identifier 'y'", ("/tmp/a b/x.c", "1", "27", "error")),
    ("C:\\work\\x.asm:3:10: error: expected a register", ("C:\\work\\x.asm", "3", "10", "error")),
    ("    3 |   ld r2, 8(r1)", None),
    ("    hint: the offset has a place of its own: 1:2: error: none", None),
]
# Sources of other assemblers, which are not claimed.
OTHERS = ["section .text\nglobal _start\n", "; a thread\n.code\nmov ax, 1\n", ".segment\n", "x: .byte 1\n"]
# Stands in the place of Visual Studio Code. It writes down the tasks that the extension offers, and one of a user; which
# texts it takes for ours; how it debugs; and what its client gives the editor of a source, if there is a server.
NODE = """
const Module = require("module");
const { path, expressions, texts, mm, source } = JSON.parse(require("fs").readFileSync(process.argv[1], "utf8"));
const kept = { tasks: null, adapter: null, configured: null, opened: [], claimed: [], found: [], providers: {} };
const gone = { dispose() {} };
const provide = (name) => (selector, provider) => { kept.providers[name] = provider; return gone; };
const plain = (name, ...fields) => class { constructor(...given) { fields.forEach((field,
  at) => { this[field] = given[at]; }); } };
const vscode = {
  ProcessExecution: plain("ProcessExecution", "process", "args"),
  Task: plain("Task", "definition", "scope", "name", "source", "execution", "matchers"),
  Position: plain("Position", "line", "character"), Range: plain("Range", "start", "end"), Hover: plain("Hover",
    "contents", "range"),
  MarkdownString: plain("MarkdownString", "value"), Location: plain("Location", "uri", "range"),
  Diagnostic: plain("Diagnostic", "range", "message", "severity"), CompletionItem: plain("CompletionItem", "label",
    "kind"),
  DocumentSymbol: plain("DocumentSymbol", "name", "detail", "kind", "range", "selectionRange"),
  DebugAdapterExecutable: plain("DebugAdapterExecutable", "command", "args"),
  Uri: { parse: (text) => ({ toString: () => text }) },
  TaskScope: { Workspace: 2 }, TaskGroup: { Build: "build" }, TaskRevealKind: { Always: 1 },
    SymbolKind: { Namespace: 2, Constant: 13 },
  CompletionItemKind: { Keyword: 13 }, DiagnosticSeverity: { Error: 0 },
  workspace: {
    getConfiguration: () => ({ get: (name) => (name === "mm" && mm ? mm : undefined) }),
    onDidOpenTextDocument: (act) => { kept.opened.push(act); return gone; },
    onDidChangeTextDocument: () => gone, onDidCloseTextDocument: () => gone, textDocuments: [],
  },
  languages: {
    setTextDocumentLanguage: (document, id) => { kept.claimed.push(id); },
    createDiagnosticCollection: () => ({ set: (uri, list) => kept.found.push(list.map(({ message,
      range }) => [range.start.line, message.split("\\n")[0]])), ...gone }),
    registerHoverProvider: provide("hover"), registerDefinitionProvider: provide("definition"),
      registerReferenceProvider: provide("references"),
    registerDocumentSymbolProvider: provide("symbols"), registerCompletionItemProvider: provide("completion"),
  },
  debug: {
    registerDebugAdapterDescriptorFactory: (type, given) => { kept.adapter = given; return gone; },
    registerDebugConfigurationProvider: (type, given) => { kept.configured = given; return gone; },
  },
  tasks: { registerTaskProvider: (type, given) => { kept.tasks = given; return gone; } },
  window: { showWarningMessage: (text) => { throw new Error(text); } },
};
const load = Module._load;
Module._load = (name, ...rest) => (name === "vscode" ? vscode : load(name, ...rest));
const context = { subscriptions: [] }, extension = require(path);
extension.activate(context);
const own = new vscode.Task({ type: "mm", command: "audit", words: ["a.asm", "--groups", "0"] }, 2, "own", "mm");
for (const text of expressions) new RegExp(text);
const document = (languageId) => ({ languageId, version: 1, fileName: "/a/b.asm",
  uri: { toString: () => "file:///a/b.asm" }, getText: () => source });
const until = async (test) => { for (let at = 0; at < 500 && !test(); at++) await new Promise((done) =>
  setTimeout(done, 20)); };
(async () => {
  kept.opened.forEach((act) => act(document("plaintext")));
  const said = { claimed: kept.claimed };
  if (mm) {
    vscode.workspace.textDocuments.push(document("mmachine-asm"));
    kept.opened.forEach((act) => act(document("mmachine-asm")));
    await until(() => kept.found.length && kept.providers.completion);
    said.found = kept.found[0];
    const at = (line, character) => [document("mmachine-asm"), { line, character }];
    said.hover = (await kept.providers.hover.provideHover(...at(2, 3))).contents.value.split("\\n")[1];
    said.definition = (await kept.providers.definition.provideDefinition(...at(4, 12))).range.start.line;
    said.references = (await kept.providers.references.provideReferences(...at(4, 12))).length;
    said.symbols = (await kept.providers.symbols.provideDocumentSymbols(document("mmachine-asm"))).map((it) =>
      [it.name, it.children.length]);
    said.completion = (await kept.providers.completion.provideCompletionItems(...at(2,
      4))).map((it) => it.label).slice(0, 3);
    await Promise.all(context.subscriptions.map((it) => it.dispose()));
  }
  console.log(JSON.stringify({ tasks: [...kept.tasks.provideTasks(), kept.tasks.resolveTask(own)],
    ours: texts.map(extension.isOurs),
    adapter: kept.adapter.createDebugAdapterDescriptor(), configured: kept.configured.resolveDebugConfiguration(null,
      { type: "mm", request: "launch" }), said }));
})();
"""
# A source for the client, and what it says of it.
CLIENT_SOURCE = """; a source
.segment main 6
  ldi r1, 65
loop: out r1, 2
  bnz r1, loop
  halt
.thread 0 0 none xu main
"""


def read_json(name):
    with open(os.path.join(FOLDER, name), encoding="utf-8") as file:
        return json.load(file)


def check_language(expect, language, configuration):
    """No name of a file makes it ours, and comments and words are those of the language."""
    expect("vscode: names that are claimed", language.get("extensions"), None)
    for line, wanted in FIRST_LINES:
        expect(f"vscode: first line {line!r}", bool(re.search(language["firstLine"], line)), wanted)
    comment = configuration["comments"]["lineComment"]
    grammar = read_json("mmachine-asm.tmLanguage.json")["repository"]["comment"]["match"]
    expect("vscode: a comment in the grammar", bool(re.match(grammar, f"{comment} text")), True)
    expect("vscode: words", [re.match(configuration["wordPattern"], word)[0] for word in WORDS], WORDS)


def typed(body):
    """The lines of a snippet as they stand before anything is changed: each place has its first offer."""
    for form in (r"\$\{\d+:([^}]*)\}", r"\$\{\d+\|([^,|]*)[^|]*\|\}", r"\$\d+()"):
        body = [re.sub(form, r"\1", line) for line in body]
    return body


def check_snippets(expect, snippets):
    """Each line of a snippet is a line of a source, and no two snippets begin with the same word."""
    lines = [line for snippet in snippets.values() for line in typed(snippet["body"])]
    expect("vscode: lines of snippets that are none", [line for line in lines if read_line(line).mismatch], [])
    prefixes = [snippet["prefix"] for snippet in snippets.values()]
    expect("vscode: beginnings of snippets", (len(prefixes) > 5, len(set(prefixes))), (True, len(prefixes)))


def problems(patterns, lines):
    """What a pattern of one line or several finds in lines, as that editor does: each found group by its name."""
    found, at = [], 0
    while at + len(patterns) <= len(lines):
        matches = [re.search(pattern["regexp"], line) for pattern, line in zip(patterns, lines[at:])]
        if not all(matches):
            at += 1
            continue
        problem = {}
        for pattern, match in zip(patterns, matches):
            problem.update({part: match[group] for part, group in pattern.items() if isinstance(group, int)})
        found.append(problem)
        at += len(patterns)
    return found


def told(*words):
    """The lines of `mm`, standard error and output."""
    ended = subprocess.run(
        [sys.executable, os.path.join(TOP, "bin", "mm"), *words], capture_output=True, text=True, check=False, cwd=TOP
    )
    return (ended.stderr + ended.stdout).splitlines()


def check_messages(expect, patterns):
    """What `mm` says of a bad source and of a run with faults is found, with its places."""
    with tempfile.TemporaryDirectory() as room:
        bad = os.path.join(room, "bad.asm")
        with open(bad, "w", encoding="utf-8") as file:
            file.write(BAD_SOURCE)
        found = problems([patterns["mm"]], told("run", bad))
    places = [(one["file"], int(one["line"]), int(one["column"]), one["severity"]) for one in found]
    expect("vscode: faults of a source", places, [(bad, line, column, "error") for line, column, _ in BAD_FAULTS])
    for one, (_, _, message) in zip(found, BAD_FAULTS):
        expect(f"vscode: message {one['message']!r}", one["message"].startswith(message), True)
    lines = told("run", "examples/faults.asm")
    expect("vscode: a report has no fault of a source", problems([patterns["mm"]], lines), [])
    faults = problems(patterns["mm-fault"]["patterns"], lines)
    stopped = sum("stopped at" in line for line in lines)
    files = {one["file"] for one in faults}
    expect("vscode: faults of a run", (len(faults), files), (stopped, {"examples/faults.asm"}))
    expect("vscode: a fault has its reason", all(one["message"].startswith("fault ") for one in faults), True)


def check_lines(expect, patterns):
    for line, wanted in LINES:
        found = problems([patterns["mm"]], [line])
        parts = tuple(found[0][part] for part in ("file", "line", "column", "severity")) if found else None
        expect(f"vscode: the place in {line!r}", parts, wanted)


def regular_expressions(value, name=""):
    """All regular expressions in the JSON of the extension."""
    if isinstance(value, dict):
        return [text for key, inner in value.items() for text in regular_expressions(inner, key)]
    if isinstance(value, list):
        return [text for inner in value for text in regular_expressions(inner, name)]
    return [value] if name in ("regexp", "match", "firstLine", "wordPattern") else []


def sources():
    """The texts of our sources."""
    found = []
    for name in sorted(name for pattern in SOURCES for name in glob.glob(os.path.join(TOP, pattern))):
        with open(name, encoding="utf-8") as file:
            found.append(file.read())
    return found


def check_extension(expect, about, expressions, mm):
    """The extension in node: its tasks, which texts are ours, how it debugs, and its client with the real server."""
    ours = sources()
    given = {"path": os.path.join(FOLDER, "extension.js"), "expressions": expressions, "texts": [*ours, *OTHERS],
      "mm": mm,
        "source": CLIENT_SOURCE}
    with tempfile.NamedTemporaryFile("w", suffix=".json", encoding="utf-8") as file:
        json.dump(given, file)
        file.flush()
        words = ["node", "-e", NODE, file.name]
        ended = subprocess.run(words, capture_output=True, text=True, check=False, timeout=300)
    expect("vscode: node", (ended.returncode, ended.stderr), (0, ""))
    if ended.returncode:
        return
    shown = json.loads(ended.stdout)
    check_tasks(expect, about, shown["tasks"], mm or "mm")
    expect("vscode: texts that are ours", (len(ours) > 20, shown["ours"]), (True,
      [True] * len(ours) + [False] * len(OTHERS)))
    expect("vscode: the adapter", shown["adapter"], {"command": mm or "mm", "args": ["dap"]})
    expect("vscode: what is debugged", shown["configured"], {"type": "mm", "request": "launch", "program": "${file}"})
    wanted = {"claimed": ["mmachine-asm"]}
    if mm:
        wanted.update(found=[[3, "expected the end of the line, found the sign `,`"]], hover="ldi rd, NUMBER",
          definition=3, references=2,
            symbols=[["main", 1]], completion=["ldi", "ldhi", "ld"])
    expect("vscode: what the client gives", shown["said"], wanted)


def check_tasks(expect, about, tasks, mm):
    """Which tasks are offered, what they run, and that their matchers are there."""
    offered = [[command, "${file}"] for command in ("run", "debug", "trace", "audit", "explore")]
    ran = [(task["execution"]["process"], task["execution"]["args"]) for task in tasks]
    own = ["audit", "a.asm", "--groups", "0"]
    expect("vscode: what tasks run", ran, [(mm, words) for words in [*offered, own]])
    expect("vscode: tasks of Build", [task["name"] for task in tasks if task.get("group")], ["run this file"])
    matchers = {f"${matcher['name']}" for matcher in about["problemMatchers"]}
    expect("vscode: matchers", {name for task in tasks for name in task["matchers"]}, matchers)
    debuggers = about["debuggers"]
    expect("vscode: the debugger", [(each["type"], each["languages"]) for each in debuggers], [("mm",
      ["mmachine-asm"])])


def check_vsix(expect, package):
    """The .vsix is a zip with a manifest, and has each file that package.json names; it is the same if made again."""
    name, data = vsix(of_folder(TOP))
    expect("vscode: the name of the .vsix", name, f"{package['name']}-{package['version']}.vsix")
    expect("vscode: the .vsix made again", vsix(of_folder(TOP)), (name, data))
    with zipfile.ZipFile(io.BytesIO(data)) as archive:
        expect("vscode: the .vsix as a zip", archive.testzip(), None)
        names = set(archive.namelist())
        for about in ("extension.vsixmanifest", "[Content_Types].xml"):
            xml.etree.ElementTree.fromstring(archive.read(about))
    contributes = package["contributes"]
    files = [package["main"], contributes["languages"][0]["configuration"]]
    files += [contributes[kind][0]["path"] for kind in ("grammars", "snippets")]
    needed = {"package.json", "README.md", "client.js", *(path[2:] for path in files)}
    expect("vscode: files of the .vsix", {f"extension/{path}" for path in needed} - names, set())


def is_json(expect):
    """Whether each file that ends so is JSON."""
    sound = True
    for path in sorted(glob.glob(os.path.join(FOLDER, "*.json"))):
        try:
            read_json(path)
        except ValueError as error:
            expect(f"vscode: {os.path.basename(path)}", str(error), "JSON")
            sound = False
    return sound


def check(expect):
    """Tries all of it. What had to be left out."""
    if not is_json(expect):
        return []
    package, configuration = read_json("package.json"), read_json("language-configuration.json")
    about = package["contributes"]
    patterns = {pattern["name"]: pattern for pattern in about["problemPatterns"]}
    used = [matcher["pattern"] for matcher in about["problemMatchers"]]
    expect("vscode: patterns", list(patterns), ["mm", "mm-fault"])
    expect("vscode: patterns of the matchers", used, [f"${name}" for name in patterns])
    if set(patterns) != {"mm", "mm-fault"}:
        return []
    check_language(expect, about["languages"][0], configuration)
    check_snippets(expect, read_json(about["snippets"][0]["path"]))
    check_lines(expect, patterns)
    check_vsix(expect, package)
    left_out, mm = [], ""
    try:
        find_program()
        check_messages(expect, patterns)
        mm = os.path.join(TOP, "bin", "mm")
    except Stop:
        left_out.append("mmachine")
    if shutil.which("node"):
        expressions = regular_expressions([about, configuration, read_json("mmachine-asm.tmLanguage.json")])
        check_extension(expect, about, expressions, mm)
    else:
        left_out.append("node")
    return left_out
