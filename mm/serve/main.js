// The page: what is shown when it opens, and what clicks and keys do.

function showSide(side) {
  document.querySelector(".bench").dataset.side = side;
  byId("to-left").setAttribute("aria-pressed", `${side === "left"}`);
  byId("to-right").setAttribute("aria-pressed", `${side === "right"}`);
  if (side === "right" && view.ready) view.draw();
}

function setTheme(theme) {
  if (theme) root.dataset.theme = theme;
  const dark = theme ? theme === "dark" : matchMedia("(prefers-color-scheme: dark)").matches;
  byId("theme").textContent = dark ? "Light" : "Dark";
  byId("theme").onclick = () => setTheme(dark ? "light" : "dark");
  if (view.ready) inFrame().setTheme(theme);
}

function setSize(by) {
  view.size = Math.max(0, Math.min(3, view.size + by));
  root.dataset.size = view.size;
  if (view.ready) inFrame().setSize(by);
  showInk();
}

const KEYS = [
  ["Ctrl+Enter", "run", () => run()],
  ["F8", "to the next break (with Shift: to the one before)", () => step("resume"), () => step("reverse")],
  ["F9", "a break in this line, or none", () => toggleBreak(caretLine())],
  ["F10", "step (with Shift: back)", () => step("step"), () => step("back")],
  ["F4", "run to the cursor", () => step("here")],
  ["F6", "between the source and what came of it", () => changeSide()],
  ["Ctrl+S", "save the source", () => saveFile()],
  ["Ctrl+Space", "words that may stand here, in the source"],
  ["Escape, Tab", "out of the source to what is after it"],
];

function changeSide() {
  const left = byId("left").contains(document.activeElement) || document.activeElement === document.body;
  showSide(left ? "right" : "left");
  if (!left) return byId("text").focus();
  if (view.ready && results.pane === "view") inFrame().document.getElementById("timeline").focus();
  else byId("pane").focus();
}

// The keys of the page, wherever one is on it.
function onKey(event) {
  const name = `${event.ctrlKey || event.metaKey ? "Ctrl+" : ""}${event.key === "s" ? "S" : event.key}`;
  const row = KEYS.find(([key, , act]) => key === name && act);
  if (!row || event.altKey || document.querySelector("dialog[open]")) return;
  event.preventDefault();
  (event.shiftKey && row[3] ? row[3] : row[2])();
}

const onFrameKey = (event) => onKey(event);

function openDialog(title, parts) {
  const box = byId("help"), close = el("button", { type: "button" }, "Close");
  close.addEventListener("click", () => box.close());
  box.replaceChildren(el("h2", { id: "help-title" }, title), ...parts, close);
  if (!box.open) box.showModal();
  box.scrollTop = 0;
}

function openHelp() {
  const inRun = el("button", { type: "button", id: "keys-of-run" }, "Keys of the run");
  openDialog("Keys", [el("table", {}, el("tbody", {}, KEYS.map(([key, says]) => el("tr", {}, el("th", { scope: "row" },
    el("kbd", {}, key)),
    el("td", {}, says))))), el("p", {}, "A click on the number of a line sets a break there."),
  el("p", {}, view.ready ? inRun : null, " ", el("button", { type: "button", "data-does": "instructions" },
    "All instructions"))]);
}

function showAll() {
  showTabs();
  showText();
  showTurns();
  showGrade();
  Object.assign(results, { report: null, panes: {}, words: {}, marks: null, orderEnds: "", notes: [] });
  Object.assign(state, { now: null, done: null, stands: null, faults: [], slots: [] });
  view.ready = false;
  newFrame(null);
  showMistakes();
  showPaneTabs();
  showPane();
  explain();
  checkSoon();
}

const WHAT = "A program is segments of words, and threads that run in them. A word has 64 bits and a tag, which says"
  + " whether it is a pointer; only privileged code makes a pointer out of a number. An instruction reaches memory only"
  + " through a pointer, and only as far as that reaches. Lesson 1 begins with this.";

// What the machine is, and each word that a line may begin with.
function openInstructions() {
  const rows = (table) => Object.values(table).map(([usage, says, example]) => el("tr", {}, el("th", { scope: "row" },
    el("code", {}, usage)), el("td", {}, `${says}. For example `, el("code", {}, example))));
  const { operations, directives } = about.words;
  openDialog("Instructions", [el("p", {}, WHAT), el("table", { class: "instructions" }, el("tbody", {},
    rows(operations), rows(directives)))]);
}

function openKeysOfRun() {
  byId("help").close();
  choosePane("view");
  showSide("right");
  inFrame().openHelp();
}

// The arrows move between the tabs of a list, as a screen reader says that they do.
function onTabKey(event) {
  const tabs = [...event.currentTarget.querySelectorAll("[role=tab]")], at = tabs.indexOf(document.activeElement);
  const by = { ArrowRight: 1, ArrowLeft: -1 }[event.key];
  if (at < 0 || !by) return;
  event.preventDefault();
  const list = event.currentTarget, to = (at + by + tabs.length) % tabs.length;
  tabs[to].click();
  list.querySelectorAll("[role=tab]")[to].focus();
}

const CLICKS = {
  run: () => run(), grade, take: () => byId("examples").value && takeExample(byId("examples").value),
  before: openBefore, "its-turns": () => setTurns(state.offered), "keys-of-run": openKeysOfRun,
  instructions: openInstructions,
  open: () => byId("chosen").click(), save: saveFile, link: showLink, add: addFile, rename: renameFile,
  remove: removeFile, smaller: () => setSize(-1), larger: () => setSize(1), keys: openHelp, "to-left": () =>
    showSide("left"),
  "to-right": () => showSide("right"), "no-turns": () => setTurns(""),
  "undo-turn": () => setTurns(textOf(itemsOf(state.turns).slice(0, -1))),
};

function onClick(event) {
  const target = event.target.closest("button, li[data-at], a[data-lesson]");
  if (!target) return;
  const { at, pane, step: name, slot, line, turns, example, lesson, before } = target.dataset;
  const does = CLICKS[target.dataset.does || target.id];
  if (does) does();
  else if (target.closest("#files")) chooseFile(Number(at));
  else if (target.closest("#offers")) acceptOffer(Number(at));
  else if (pane) choosePane(pane);
  else if (name) step(name);
  else if (slot) setTurns(textOf([...itemsOf(state.turns), slot]));
  else if (target.closest("#gutter")) toggleBreak(Number(line));
  else if (before !== undefined) bringBack(Number(before));
  else if (target.matches(".goto")) goToLine(target.dataset.file, Number(line));
  else if (target.closest("#mistakes")) goToLine(target.dataset.file, Number(line), Number(target.dataset.letter));
  else if (turns !== undefined) setTurns(turns);
  else if (example) takeExample(example);
  else if (target.dataset.grade) grade();
  else if (target.dataset.start) takeStart();
  else if (lesson) {
    event.preventDefault();
    openLesson(lesson);
  }
}

function listen() {
  const field = byId("text");
  document.addEventListener("click", onClick);
  byId("offers").addEventListener("pointerdown", (event) => event.preventDefault());
  document.addEventListener("keydown", onKey);
  field.addEventListener("input", edited);
  field.addEventListener("keydown", onEditorKey);
  field.addEventListener("blur", () => setTimeout(() => { hideOffers(); showMarks(); }, 150));
  field.addEventListener("focus", showMarks);
  document.addEventListener("selectionchange", () => document.activeElement === field && caretMoved());
  byId("examples").addEventListener("change", (event) => { byId("take").disabled = !event.target.value; });
  byId("lessons").addEventListener("change", (event) => openLesson(event.target.value));
  byId("exercises").addEventListener("change", (event) => chooseExercise(event.target.value));
  byId("chosen").addEventListener("change", async (event) => { await openFiles([...event.target.files]);
    event.target.value = ""; });
  byId("level").addEventListener("change", (event) => { state.level = event.target.value; state.version++; keep(); });
  byId("turns").addEventListener("change", () => setTurns(byId("turns").value.trim()));
  for (const id of ["files", "panes"]) byId(id).addEventListener("keydown", onTabKey);
  matchMedia("(prefers-color-scheme: dark)").addEventListener("change", () => setTheme(root.dataset.theme || null));
  WIDE.addEventListener("change", sayInside);
  window.addEventListener("hashchange", openLink);
  new ResizeObserver(keepCaret).observe(byId("editor"));
}

// The program of the address, if it has one and nothing is lost by it.
async function openLink() {
  const program = await programIn(location.hash);
  if (!program) return;
  if (JSON.stringify(program.files) !== JSON.stringify(state.files) && !(await mayReplace("the program of the link"))) {
    return forgetLink();
  }
  take({ ...program, base: baseOf(program.files) });
  keep();
  showAll();
}

// What the page shows first: what was there at the last visit, unless the server was started with other files.
function showFirst() {
  const { files, mark } = about.begin, kept = stored(KEPT), there = take(kept);
  if (files.length && !(there && state.begun === mark)) {
    if (there) keepBefore(keepable());
    take({ files, base: baseOf(files), begun: mark });
    keep();
  } else if (!there) {
    const begin = [{ name: "mine.asm", text: about.shelf.begin }];
    take({ files: begin, base: baseOf(begin) });
  }
}

async function begin() {
  about = await (await fetch("about.json")).json();
  const { lesson } = about.begin;
  showFirst();
  byId("cycles").max = about.limits.cycles;
  listen();
  fillShelf();
  setTheme(null);
  showAll();
  if (lesson) openLesson(lesson);
  root.dataset.ready = "1";
  openLink();
}

begin();
