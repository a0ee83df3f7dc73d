// What came of it, in panes: the run, its report, what commands of `mm` say of the program, and the lesson or exercise.

const results = { pane: "view", report: null, ranOf: "", orderEnds: "", notes: [], panes: {}, words: {}, marks: null,
  lesson: null };

// All panes: name, title, and what it shows.
function panesThere() {
  const commands = about.panes.map(([command, title, says]) => [command, title, says]);
  return [["view", "Run", "the run, turn by turn"], ["report", "Report", "what came of the run"], ...commands,
    ...(results.lesson ? [["lesson", "Lesson", "the lesson"]] : []),
    ...(state.exercise ? [["exercise", "Exercise", "the exercise and its grade"]] : [])];
}

function showPaneTabs() {
  byId("panes").replaceChildren(...panesThere().map(([name, title, says]) => el("button", { type: "button", role: "tab",
    "data-pane": name, title: says, "aria-selected": `${name === results.pane}`, "aria-controls": "pane",
    tabindex: name === results.pane ? 0 : -1 }, title)));
}

function choosePane(name) {
  results.pane = name;
  showPaneTabs();
  showPane();
}

// Whether what a pane shows is about another program than that of the page, and what shows it anew.
function olderPane() {
  const { pane, marks, panes } = results, isOlder = (made) => made && made.of !== subjectOf(pane);
  if (pane === "view" || pane === "report") return results.report && view.older ? ["Run", () => run()] : null;
  if (pane === "exercise") return isOlder(marks) ? ["Grade", grade] : null;
  return isOlder(panes[pane]) ? ["Ask again", () => askPane(pane)] : null;
}

// What has to be said of all that a pane shows, each with a button.
function showNotices() {
  const older = olderPane(), ran = ["view", "report"].includes(results.pane) && results.report, found = [];
  if (older) found.push(["This is about the program before your last change.", ...older]);
  else if (ran && results.orderEnds) {
    found.push([`The run ends here because your order of turns ends, after ${results.orderEnds}.`, "Round robin",
      () => setTurns("")]);
  }
  if (!older && ran) found.push(...results.notes.map((note) => [note]));
  byId("notices").replaceChildren(...found.map(([text, label, act]) => {
    if (!act) return el("p", { class: "notes" }, text);
    const button = el("button", { type: "button" }, label);
    button.addEventListener("click", act);
    return el("p", { class: "notes" }, text, " ", button);
  }));
}

// Shows the chosen pane. What a command says is asked for when it is looked at, and anew after each change.
function showPane() {
  const { pane } = results, isView = pane === "view" && view.ready;
  showNotices();
  byId("stand").hidden = !isView;
  byId("frame").hidden = !isView;
  byId("debugger").hidden = pane !== "view";
  byId("pane").hidden = isView;
  byId("pane").setAttribute("aria-label", panesThere().find(([name]) => name === pane)?.[1] || "");
  if (isView) return view.draw();
  const shown = { view: () => [el("p", {}, "Press Run, or Ctrl and Enter, to run the program.")], report: reportPane,
    lesson: lessonPane, exercise: exercisePane }[pane];
  byId("pane").replaceChildren(...(shown ? shown() : commandPane(pane)));
}

const reportPane = () => [el("pre", { tabindex: 0 }, results.report ? linked(results.report) : "Nothing was run yet.")];

const LINE_OF = /^(\s*)([\w -]+?\.(?:asm|c)):(\d+)(?=:)/;

// Lines as they are, but a line of a source here is a button that goes to it.
function linked(lines) {
  return lines.flatMap((line) => {
    const found = LINE_OF.exec(line), name = found && found[2];
    if (!state.files.some((each) => each.name === name)) return [`${line}\n`];
    return [found[1], el("button", { type: "button", class: "goto", "data-file": name, "data-line": found[3] },
      `${name}:${found[3]}`), `${line.slice(found[0].length)}\n`];
  });
}

// The lines of a source at which a kernel gives something away, as Keeps has said of this very program.
function leaksOf(name) {
  const made = results.panes.keeps, now = made && made.head && !made.good && made.of === subjectOf("keeps");
  const found = now ? made.lines.map((line) => LINE_OF.exec(line)).filter(Boolean) : [];
  return found.filter(([, , file]) => file === name).map(([, , , line]) => ({ line: Number(line) }));
}

// The groups of the threads here, as a question can name them.
function groupsHere() {
  const found = state.files.flatMap(({ text }) => [...text.matchAll(/^[^;\n]*\.thread\s+\d+\s+(\d+)/gm)])
    .map(([, group]) => group);
  return [...new Set(found.length ? found : state.slots.map(String))].sort((a, b) => a - b);
}

const wordsIn = (text) => text.trim().split(/\s+/).filter(Boolean);

// A field of a question: a list to choose from, or a line for a name, with the names there are.
function fieldOf([label, choices], value, only) {
  const list = Array.isArray(choices) ? choices : choices === "group" ? groupsHere() : null;
  const id = only ? "pane-words" : `pane-${label}`;
  const field = list ? el("select", { id }, list.map((each) => option(each, each))) : el("input", { type: "text", id,
    spellcheck: "false", autocomplete: "off", autocapitalize: "off" });
  if (value) field.value = value;
  return [field, el("label", {}, `${label} `, field)];
}

// The question of a pane: its fields, the names there are as buttons, and an example.
function questionOf(command, fields, example) {
  const said = results.words[command] || (results.panes[command] || {}).words || [], only = fields.length === 1;
  const made = fields.map((each, at) => fieldOf(each, only ? said.join(" ") : said[at], only));
  const line = made.map(([field]) => field).find((field) => field.matches("input"));
  const missing = el("p", { class: "missing", role: "status" }), form = el("form", { class: "bar" },
    made.map(([, label]) => label), el("button", { type: "submit" }, "Ask"));
  form.addEventListener("submit", (event) => {
    event.preventDefault();
    const words = made.flatMap(([field]) => wordsIn(field.value)), [what] = fields.find(([, kind]) => kind === "name");
    const few = words.length < fields.length && !isGuessed(command);
    missing.textContent = few ? `Say a ${what}: choose one of the names below.` : "";
    if (missing.textContent) return line.focus();
    results.words[command] = words.length ? words : undefined;
    askPane(command);
  });
  const names = [...allNames().keys()].map((name) => el("button", { type: "button", "data-name": name }, name));
  names.forEach((button) => button.addEventListener("click", () => {
    const { name } = button.dataset;
    line.value = isGuessed(command) ? [...new Set([...wordsIn(line.value), name])].join(" ") : name;
    line.focus();
  }));
  return [form, missing, names.length ? el("p", { class: "names" }, "names here: ", names) : null,
    el("p", { class: "soft" }, `for example: ${example}`)].filter(Boolean);
}

// Whether a pane finds its words by itself if none are said.
const isGuessed = (command) => about.panes.find(([name]) => name === command)[5];

// A pane of a command: its question if it has one, its answer, its picture, and schedules to run.
function commandPane(command) {
  const [, title, says, fields, example, guessed] = about.panes.find(([name]) => name === command);
  const made = results.panes[command], ready = !fields.length || guessed || results.words[command];
  const parts = [el("h3", {}, title), el("p", { class: "soft" }, `${says}, by mm ${command}`),
    ...(fields.length ? questionOf(command, fields, example) : [])];
  if ((!made || made.of !== subjectOf(command)) && ready) setTimeout(() => askPane(command));
  return made ? [...parts, ...answerPane(made)] : parts;
}

function answerPane(made) {
  const parts = made.head ? [el("p", { class: `answer ${made.good ? "yes" : "no"}` }, made.head)] : [];
  if (made.faults) parts.push(el("p", {}, made.faults.length ? "There is a mistake: see the source." : (made.stopped
    || []).join(" ")));
  if (made.missing) parts.push(el("p", { class: "notes" }, made.missing));
  if (made.refused) parts.push(el("p", { class: "notes" }, made.refused));
  if (made.behind) {
    const button = el("button", { type: "button" }, "Keeps");
    button.addEventListener("click", () => choosePane("keeps"));
    parts.push(el("p", { class: "notes" }, `Only doors lead to ${made.behind}. An audit reads no code, so whoever may`
      + " enter a door counts as if all that is behind it were his. This reads the code there: ", button));
  }
  if (made.schedules && made.schedules.length) {
    parts.push(el("ul", { class: "findings" }, made.schedules.map(([kind, number, turns, said]) => el("li", {},
      el("button", { type: "button", "data-turns": turns }, "Run this"),
        ` ${kind}${number}: ${said || "nothing is printed"}`))));
  }
  const lines = [...(made.lines || []), ...(made.notes || [])], text = lines.length ? el("pre", { tabindex: 0 },
    linked(lines)) : null;
  const picture = made.picture ? el("img", { alt: "A picture of the same",
    src: `data:image/svg+xml;charset=utf-8,${encodeURIComponent(made.picture)}` }) : null;
  return [...parts, ...(made.head ? [text, picture] : [picture, text])].filter(Boolean);
}

async function askPane(command) {
  if (asking.pane === command) return;
  asking.pane = command;
  const of = subjectOf(command);
  busy("asks …");
  const answer = await ask(command, { words: results.words[command] || [], cycles: command === "trace" ? cyclesAsked()
    : null });
  asking.pane = null;
  busy("");
  if (!answer) return;
  if (answer.faults && answer.faults.length) takeFaults(answer);
  results.panes[command] = { ...answer, of };
  if (command === "keeps") showMarks();
  if (results.pane === command) showPane();
}

function lessonPane() {
  const box = el("div", { class: "lesson" });
  box.innerHTML = results.lesson.html; // Our own page: the server has escaped all text of it.
  const { example } = results.lesson;
  return [example ? el("p", {}, el("button", { type: "button", "data-example": example },
    `Take ${example} into the editor`)) : null,
    box].filter(Boolean);
}

function exercisePane() {
  const exercise = about.shelf.exercises.find(({ name }) => name === state.exercise), box = el("div",
    { class: "lesson" });
  box.innerHTML = exercise.html; // Our own page, as above.
  const { marks } = results, rows = marks ? marks.marks : exercise.asks.map((text) => [text, undefined]);
  const meanings = new Map(exercise.asks.map((text, at) => [text, exercise.meanings[at]]));
  const meaning = (text) => {
    const made = el("div", { class: "soft" });
    made.innerHTML = meanings.get(text) || ""; // Of our own page GRADING.md, escaped as above.
    return made;
  };
  return [el("h3", {}, exercise.title),
    marks ? el("p", {}, el("strong", {}, `${marks.right} of ${marks.marks.length}`)) : el("p", { class: "soft" },
      "This is looked at:"),
    el("ul", { class: "marks" }, rows.map(([text, why]) => el("li", { class: why === undefined ? null : why === null
      ? "yes" : "no" },
      why === undefined ? null : el("b", {}, why === null ? "yes" : "no"), el("code", {}, text),
      why ? el("div", {}, why) : null, meaning(text)))),
    el("p", { class: "row" }, el("button", { type: "button", class: "main", "data-grade": "1" }, "Grade"),
      exercise.start ? el("button", { type: "button", "data-start": "1" }, "Take its beginning into the editor")
        : null),
    el("p", { class: "soft" }, "Where the text names a command, a button does it here: mm run is Run, mm grade is"
      + " Grade, mm debug is step and back, and a click on a register takes its word apart; Keys lists all instructions."),
    box];
}
