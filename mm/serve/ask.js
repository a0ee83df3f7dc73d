// What is asked of the server: mistakes while one types, runs, panes, grades.

const asking = { number: 0, check: null, timer: null, pane: null };

const say = (text) => { byId("checked").textContent = text; };

function busy(text, refused = false) {
  byId("busy").textContent = text;
  byId("busy").classList.toggle("refused", refused);
}

// The answer to a request; what is not carried out has the reason in `refused`.
async function ask(deed, more = {}, signal = undefined) {
  const { files, turns, level } = state;
  try {
    const answer = await fetch("do", { method: "POST", signal, headers: { "Content-Type": "application/json" },
      body: JSON.stringify({ do: deed, files, turns, level, ...more }) });
    const form = await answer.json();
    return answer.ok ? form : { refused: form.refused || `the server answers ${answer.status}` };
  } catch (error) {
    if (error.name === "AbortError") return null;
    return { refused: "the server does not answer: is it still there?" };
  }
}

// Takes the mistakes of an answer, and says how many there are.
function takeFaults(answer) {
  state.faults = (answer.faults || []).map((fault) => ({ ...fault, file: fault.file.replace(/\.c\.asm$/, ".c") }));
  showGutter();
  showMarks();
  showMistakes();
  const count = state.faults.length;
  say(count ? `${count} mistake${count === 1 ? "" : "s"}: ${state.faults[0].message}` : "no mistakes");
}

function takeSlots(slots) {
  if (!slots || `${slots}` === `${state.slots}`) return;
  state.slots = slots;
  showTurns();
}

function checkSoon() {
  clearTimeout(asking.timer);
  asking.timer = setTimeout(check, 350);
}

async function check() {
  if (asking.check) asking.check.abort();
  asking.check = new AbortController();
  const answer = await ask("check", {}, asking.check.signal);
  if (!answer) return;
  if (answer.refused) return busy(answer.refused, true);
  takeFaults(answer);
  takeSlots(answer.slots);
}

// How many cycles are asked for; null is all of them.
function cyclesAsked() {
  const field = byId("cycles"), said = field.value.trim(), number = Number(said), most = about.limits.cycles;
  if (!said && !field.validity.badInput) return null;
  if (said && Number.isInteger(number) && number >= 0 && number <= most) return number;
  field.value = "";
  tell(`the cycles are a number from 0 to ${most}: all are run`);
  return null;
}

// Runs the sources, and shows the run; `place` is where the cursor goes.
async function run(place = "end", cycles = cyclesAsked()) {
  const number = ++asking.number, ranOf = subjectOf("view");
  busy("runs …");
  const answer = await ask("run", { cycles });
  if (!answer || number !== asking.number) return;
  busy(answer.refused || "", Boolean(answer.refused));
  if (answer.refused) return;
  takeFaults(answer);
  if (!answer.view) {
    results.report = null;
    busy((answer.stopped || []).join("\n") || (state.faults.length ? "there is a mistake: see the source" : ""), true);
    if (state.faults.length) showSide("left");
    return;
  }
  takeSlots(answer.slots);
  results.report = [...answer.report, ...(answer.notes.length ? ["", ...answer.notes] : [])];
  Object.assign(results, { ranOf, orderEnds: answer.order_ends, notes: answer.notes });
  await showView(answer.view, place);
  if (!["view", "report"].includes(results.pane)) choosePane("view");
  else showPane();
  showSide("right");
}

async function grade() {
  if (!state.exercise) return;
  busy("grades …");
  const of = subjectOf("exercise"), answer = await ask("grade", { words: [state.exercise] });
  busy(answer && answer.refused ? answer.refused : "", Boolean(answer && answer.refused));
  if (!answer || answer.refused) return;
  if (answer.faults) takeFaults(answer);
  results.marks = answer.marks ? { ...answer, of } : null;
  if (!answer.marks) return busy((answer.stopped || []).join("\n") || "there is a mistake: see the source", true);
  choosePane("exercise");
  showSide("right");
  say(`${answer.right} of ${answer.marks.length}`);
}
