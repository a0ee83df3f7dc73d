// What one can begin from, and how sources come and go: examples, lessons, exercises, files, links, tabs.

const option = (value, text) => el("option", { value }, text);

function fillShelf() {
  const { examples, c, lessons, exercises } = about.shelf;
  const group = (label, options) => (options.length ? el("optgroup", { label }, options) : null);
  byId("examples").replaceChildren(option("", "Example …"), ...[group("Assembly", examples.map(({ name, title }) =>
    option(name, `${name}: ${title}`))),
    group("C", c.map(({ name, title }) => option(name, `${name}: ${title}`)))].filter(Boolean));
  byId("lessons").replaceChildren(option("", "Lesson …"), ...lessons.map(({ number, title }) => option(number,
    title)));
  byId("before").hidden = !programsBefore().length;
  byId("exercises").replaceChildren(option("", "Exercise …"), ...exercises.map(({ name, title }) => option(name,
    `${name}: ${title}`)));
  byId("exercises").value = state.exercise || "";
  byId("lessons").hidden = !lessons.length;
  byId("exercises").hidden = !exercises.length;
}

async function takeExample(name) {
  const found = [...about.shelf.examples, ...about.shelf.c].find((item) => item.name === name);
  if (!found || !(await mayReplace(name))) return;
  takeProgram(found.files, found.turns, state.exercise);
  tell(`${name} is in the editor${found.turns ? ", in round robin: Order of turns offers its own order" : ""}`);
  showSide("left");
  byId("text").focus();
}

// Shows a lesson; the list of lessons keeps the focus, so that its arrows lead on.
function openLesson(number) {
  results.lesson = about.shelf.lessons.find((lesson) => lesson.number === Number(number)) || null;
  byId("lessons").value = results.lesson ? number : "";
  choosePane(results.lesson ? "lesson" : results.pane === "lesson" ? "view" : results.pane);
  if (!results.lesson) return;
  showSide("right");
  byId("pane").scrollTop = 0;
}

function chooseExercise(name) {
  state.exercise = about.shelf.exercises.some((each) => each.name === name) ? name : null;
  results.marks = null;
  keep();
  showGrade();
  showPaneTabs();
  if (state.exercise) choosePane("exercise");
  else if (results.pane === "exercise") choosePane("view");
  if (state.exercise) showSide("right");
}

// The button that grades names the exercise: another program may be in the editor.
function showGrade() {
  byId("grade").hidden = !state.exercise;
  byId("grade").textContent = `Grade ${state.exercise || ""}`;
  byId("exercises").value = state.exercise || "";
}

// The program from which an exercise begins, in place of what is in the editor.
async function takeStart() {
  const { name, start } = about.shelf.exercises.find((each) => each.name === state.exercise);
  if (!(await mayReplace(`the beginning of ${name}`))) return;
  takeProgram([{ name: `${name.replace(".", "_")}.asm`, text: start }], "", name);
  tell("the beginning of the exercise is in the editor");
  showSide("left");
  byId("text").focus();
}

function showTabs() {
  byId("files").replaceChildren(...state.files.map(({ name }, at) => el("button", { type: "button", role: "tab",
    "data-at": at,
    "aria-selected": `${at === state.at}`, "aria-controls": "editor", tabindex: at === state.at ? 0 : -1 }, name)));
  byId("remove").disabled = state.files.length < 2;
  byId("add").disabled = state.files.length >= about.limits.sources;
  byId("levels").hidden = !state.files.some(({ name }) => inC(name));
  byId("level").value = state.level;
}

function chooseFile(at) {
  state.at = at;
  state.stands = state.stands || null;
  keep();
  showTabs();
  showText();
  showMistakes();
  explain();
}

// A line that is asked for; nothing where the person gives up.
function askFor(title, says, text) {
  const box = byId("ask"), field = byId("ask-text");
  byId("ask-title").textContent = title;
  byId("ask-says").textContent = says;
  field.value = text;
  box.returnValue = "";
  box.showModal();
  field.select();
  return new Promise((done) => box.addEventListener("close", () => done(box.returnValue ? field.value.trim() : null),
    { once: true }));
}

// A name for a source that no other has; null where it is none.
function nameFor(said, but = -1, again = false) {
  const name = /\.(asm|c)$/.test(said) ? said : `${said}.asm`;
  if (!NAME.test(name)) {
    return busy(`${name} is not a name of a source: letters, digits, _ and -, and .asm or .c at its end`, true), null;
  }
  if (inC(name) && !about.limits.c) return busy("C is off on this server", true), null;
  if (!again && state.files.some((each, at) => each.name === name
    && at !== but)) return busy(`there is a source ${name} already`, true), null;
  busy("");
  return name;
}

async function addFile() {
  const said = await askFor("A source more", "Its name", `part${state.files.length + 1}.asm`), name = said
    && nameFor(said);
  if (!name) return;
  state.files.push({ name, text: "" });
  state.version++;
  chooseFile(state.files.length - 1);
  byId("text").focus();
}

async function renameFile() {
  const said = await askFor("Another name", "Its name", file().name), name = said && nameFor(said, state.at);
  if (!name) return;
  state.breaks[name] = breaksOf(file().name);
  if (file().name in state.base) state.base[name] = state.base[file().name];
  file().name = name;
  state.version++;
  chooseFile(state.at);
  checkSoon();
}

async function removeFile() {
  const { name, text } = file(), gone = { files: [{ name, text }], base: state.base };
  if (state.files.length < 2) return;
  if (isOwn(gone)) {
    const says = "You wrote it and did not save it. It is kept, and the button Before brings it back by itself.";
    if (await choose(`Remove ${name}?`, says, [["yes", "Remove"]]) !== "yes") return;
    keepBefore({ ...gone, base: {} });
  }
  state.files.splice(state.at, 1);
  state.version++;
  chooseFile(Math.max(0, state.at - 1));
  tell(`${name} is removed`);
  checkSoon();
}

function saveFile() {
  const others = state.files.length - 1;
  const made = el("a", { href: URL.createObjectURL(new Blob([file().text], { type: "text/plain" })),
    download: file().name });
  made.click();
  state.base[file().name] = file().text;
  keep();
  tell(`${file().name} is saved${others ? `; ${others === 1 ? "the other source is" : "the other sources are"} not: `
    + "choose its tab, and Save" : ""}`);
  setTimeout(() => URL.revokeObjectURL(made.href), 1000);
}

// Files of this computer, with names that they can have here.
async function readFiles(chosen) {
  const opened = [];
  for (const each of chosen) {
    if (!/\.(asm|c|txt)$/.test(each.name)) {
      busy(`${each.name} is not taken: a source has a name that ends with .asm, .c or .txt`, true);
      continue;
    }
    const name = nameFor(each.name.replace(/\.txt$/, ".asm").replace(/[^A-Za-z0-9_. -]/g, "_"), -1, true);
    if (!name) continue;
    if (each.size > about.limits.bytes) {
      busy(`${each.name} has ${each.size} bytes, and the limit here is ${about.limits.bytes}`, true);
      continue;
    }
    opened.push({ name, text: await each.text() });
  }
  return opened;
}

// Opens files: in place of what is there, or beside it, as a part of the same program.
async function openFiles(chosen) {
  const opened = await readFiles(chosen), names = namesIn(opened);
  if (!opened.length) return;
  const empty = state.files.every(({ text }) => !text.trim());
  const says = "All sources here are one program. What you wrote is kept, and Before brings it back.";
  const how = empty ? "alone" : await choose(`Open ${names}`, says,
    [["alone", "In place of what is here"], ["beside", "Beside it, as a part of the same program"]]);
  if (!how || (how === "beside" && !(await mayCover(opened)))) return;
  keepBefore(keepable());
  if (how === "alone") takeProgram(opened, "", state.exercise);
  else addFiles(opened);
  showSide("left");
}

// Sources beside those that are there, or in the place of those of the same name.
const mayCover = async (opened) => {
  const covered = state.files.filter(({ name }) => opened.some((each) => each.name === name));
  return !covered.length || mayReplace(namesIn(covered), { ...keepable(), files: covered });
};

function addFiles(opened) {
  const named = new Set(opened.map(({ name }) => name));
  state.files = [...state.files.filter(({ name }) => !named.has(name)), ...opened];
  Object.assign(state.base, baseOf(opened));
  state.at = state.files.length - opened.length;
  state.version++;
  keep();
  showAll();
}

// Copies the text of an element: by the clipboard, which a page has only over HTTPS or on one's own computer, or by
// what is selected.
async function copied(said) {
  try {
    await navigator.clipboard.writeText(said.textContent);
    return true;
  } catch {
    said.focus();
    getSelection().selectAllChildren(said);
    return document.execCommand("copy");
  }
}

async function showLink() {
  const hash = await linkOf(), long = hash.length > LONGEST_LINK;
  const said = el("pre", { tabindex: 0 }, long ? "" : location.href.split("#")[0] + hash), copy = el("button",
    { type: "button", "aria-live": "polite" }, "Copy");
  copy.addEventListener("click", async () => {
    copy.textContent = await copied(said) ? "Copied" : "Press Ctrl+C: the address is selected";
  });
  openDialog("A link to this program", long ? [el("p", {}, "The program is too long for a link. Save it instead.")]
    : [el("p", {}, "Who opens it on this server sees these sources. The program itself is in the link."), said, copy]);
}
