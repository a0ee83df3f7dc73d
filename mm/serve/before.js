// Questions, what is said for a moment, and what was here before: a program that somebody wrote is kept in this browser
// when another takes its place, and can be brought back.

const BEFORE = `${KEPT}: before`, MOST_BEFORE = 8, SAID_FOR = 4500;
let toldTimer = null;

// Something said at the foot of the page, for some seconds.
function tell(text) {
  clearTimeout(toldTimer);
  byId("told").textContent = text;
  toldTimer = setTimeout(() => { byId("told").textContent = ""; }, SAID_FOR);
}

// A question with answers, each a value and what its button says; nothing where the person turns away.
function choose(title, says, answers) {
  const box = byId("sure");
  byId("sure-title").textContent = title;
  byId("sure-says").textContent = says;
  byId("sure-answers").replaceChildren(...[...answers, ["", "Cancel"]].map(([value, label]) => el("button",
    { type: "submit", value }, label)));
  box.returnValue = "";
  box.showModal();
  return new Promise((done) => box.addEventListener("close", () => done(box.returnValue), { once: true }));
}

function programsBefore() {
  const found = stored(BEFORE);
  return (Array.isArray(found) ? found : []).filter((each) => each && Array.isArray(each.files) && each.files.length
    && each.files.every(isFile));
}

// Keeps a program that another takes the place of, if somebody wrote it.
function keepBefore(program) {
  if (!isOwn(program)) return;
  const same = JSON.stringify(program.files), others = programsBefore().filter(({ files }) => JSON.stringify(files)
    !== same);
  store(BEFORE, [{ ...program, when: Date.now() }, ...others].slice(0, MOST_BEFORE));
  showBefore();
}

const showBefore = () => { byId("before").hidden = !programsBefore().length; };
const namesIn = (files) => files.map(({ name }) => name).join(", ");

// Whether something may take the place of a program: asked only if somebody wrote that here and saved it nowhere.
async function mayReplace(by, program = keepable()) {
  if (!isOwn(program)) return true;
  const says = `You wrote ${namesIn(program.files)} and did not save it. ${by} takes its place; your program is kept,`
    + " and the button Before brings it back.";
  if (await choose("In place of what you wrote?", says, [["yes", `Take ${by}`]]) !== "yes") return false;
  keepBefore(program);
  return true;
}

const firstLine = (files) => (linesOf(files[0].text).find((line) => line.trim()) || "").slice(0, 60);

function openBefore() {
  const rows = programsBefore().map((program, at) => el("li", {}, el("button", { type: "button", "data-before": at },
    namesIn(program.files)), ` ${new Date(program.when).toLocaleString()} `, el("code", {}, firstLine(program.files))));
  openDialog("What was here before", [el("p", {}, "A click brings a program back. What is in the editor is kept here in"
    + " its place."), el("ul", { class: "findings" }, rows)]);
}

function bringBack(at) {
  const program = programsBefore()[at];
  if (!program) return;
  byId("help").close();
  store(BEFORE, programsBefore().filter((each, place) => place !== at));
  keepBefore(keepable());
  take(program);
  forgetLink();
  keep();
  showAll();
  showBefore();
  showSide("left");
  tell(`${namesIn(program.files)} is back`);
}
