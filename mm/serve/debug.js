// The run in its frame, which is the page that `mm view` makes; and the debugger, which moves the cursor of that page.
// What a turn did was written by the program: nothing is worked out here.

const frame = () => byId("frame");
const view = { ready: false, size: 0,
  // Whether the run is of another program than that of the page.
  get older() { return results.ranOf !== subjectOf("view"); },
  // The frame measures itself when it is shown.
  draw() { if (frame().contentWindow.layOut) frame().contentWindow.layOut(); } };
const inFrame = () => frame().contentWindow;
const WIDE = matchMedia("(min-width: 54rem)");

// A frame in place of the one before, of which nothing can come any more: a page that still loads there would be taken
// for this one.
function newFrame(page) {
  const made = el("iframe", { id: "frame", title: "The run, turn by turn", hidden: true });
  if (page) made.srcdoc = page;
  frame().replaceWith(made);
  return made;
}

// Tells the page of a run that it is inside of this one, and whether the debugger's buttons stand in full above it.
function sayInside() {
  if (view.ready) inFrame().document.documentElement.dataset.inside = WIDE.matches ? "wide" : "narrow";
}

// Puts a page into the frame, and its cursor to the end of the run or to a place.
async function showView(page, place) {
  view.ready = false;
  const made = newFrame(page);
  made.hidden = results.pane !== "view";
  byId("pane").hidden = results.pane === "view";
  await new Promise((done) => {
    const look = () => (made.contentWindow && made.contentWindow.shown ? done() : setTimeout(look, 5));
    look();
  });
  view.ready = true;
  const inside = inFrame(), { TURNS } = inside.shown;
  sayInside();
  inside.setTheme(root.dataset.theme || null);
  if (view.size) inside.setSize(view.size);
  inside.addEventListener("moved", moved);
  inside.document.addEventListener("keydown", onFrameKey);
  inside.document.addEventListener("click", (event) => {
    const line = event.target.closest("#lines li[data-line]");
    if (line) moved();
  });
  inside.goTo(place === "end" ? TURNS.length : place);
  moved();
}

// Of an address the source and the line, by their names on this page; null where none of these sources made it.
function placeOf(address) {
  const { RUN, lineAt } = inFrame().shown, found = address >= 0 ? lineAt(address) : null;
  return found ? { file: RUN.names.sources[found.source].path, line: found.line } : null;
}

const ipOf = (slot) => Number(BigInt(`0x${slot.ip.slice(1)}`) & ((1n << 54n) - 1n));

// What a turn is called, with its line if it has one here.
function turnText(turn) {
  const place = placeOf(turn.fetch);
  return `cycle ${turn.cycle}, slot ${turn.slot}${place ? `, line ${place.line}` : ""}`;
}

// The line of the turn that comes next, that of the turn before, and the lines at which slots stand.
function moved() {
  if (!view.ready || view.older) return;
  const { TURNS, cursor, machineAt } = inFrame().shown, { place } = cursor, stands = new Map();
  const next = TURNS[place], turn = place ? TURNS[place - 1] : null;
  for (const slot of machineAt(place).slots.values()) {
    const at = slot.state === "halted" ? null : placeOf(ipOf(slot));
    if (at) stands.set(`${at.file}:${at.line}`, `${stands.get(`${at.file}:${at.line}`) || ""}s${slot.slot}`);
  }
  state.done = turn ? placeOf(turn.fetch) : null;
  state.now = next ? placeOf(next.fetch) : null;
  state.stands = stands;
  byId("stand").textContent = [turn ? `done: ${turnText(turn)}` : "at the start", next ? `next: ${turnText(next)}`
    : "this is the end"].join("; ");
  showGutter();
  showMarks();
  const shown = state.now || state.done;
  if (shown && shown.file === file().name) reveal(shown.line);
}

// Whether a run stops after so many turns: before the turn of a line with a break, or after one that faults. A slot
// that waits at its line meets a break once.
function stops(after) {
  const { TURNS } = inFrame().shown, next = TURNS[after], place = next ? placeOf(next.fetch) : null;
  if (after && TURNS[after - 1].fault) return true;
  return Boolean(place) && breaksOf(place.file).includes(place.line) && !waited(after + 1);
}

function waited(at) {
  const { TURNS } = inFrame().shown, { slot, fetch } = TURNS[at - 1];
  for (let before = at - 1; before >= 1; before--) {
    const turn = TURNS[before - 1];
    if (turn.slot === slot) return turn.outcome === "blocked" && turn.fetch === fetch;
  }
  return false;
}

// The next place, in a direction, that passes a test; the end or the start of the run where none does, which is said.
function search(way, test, none) {
  const { TURNS, cursor } = inFrame().shown;
  for (let at = cursor.place + way; at >= 0 && at <= TURNS.length; at += way) if (test(at)) return at;
  tell(none);
  return way > 0 ? TURNS.length : 0;
}

// The turns of a line of a source, by their places.
function turnsOf(name, line) {
  return inFrame().shown.TURNS.flatMap(({ fetch }, at) => {
    const place = placeOf(fetch);
    return place && place.file === name && place.line === line ? [at] : [];
  });
}

// The place before the next turn of the line where the caret is; where none comes any more, it stays.
function toCaret() {
  const { cursor } = inFrame().shown, line = caretLine(), turns = turnsOf(file().name, line);
  const found = turns.find((at) => at > cursor.place);
  if (found === undefined) {
    tell(turns.length ? `line ${line} has no turn after this one, but before it`
      : carriedOut(line) ? `this run has no turn at line ${line}`
        : `line ${line} has no instruction: no turn is there`);
  }
  return found ?? cursor.place;
}

const STEPS = {
  start: () => 0,
  end: () => inFrame().shown.TURNS.length,
  step: () => inFrame().shown.cursor.place + 1,
  back: () => inFrame().shown.cursor.place - 1,
  resume: () => search(1, stops, "no break and no fault is met: this is the end"),
  reverse: () => search(-1, stops, "no break and no fault is before this: this is the start"),
  here: toCaret,
};

// Moves the run; sources that were not run yet as they are now are run first.
async function step(name) {
  if (!view.ready || view.older) await run(0);
  if (!view.ready || view.older) return;
  if (results.pane !== "view") choosePane("view");
  inFrame().goTo(STEPS[name]());
  if (name === "here" || name === "resume" || name === "reverse") showSide("right");
}

// The order of turns: a click on a slot gives it the next turn, and runs the program so far.
function showTurns() {
  byId("next-turn").replaceChildren("next turn: ", ...state.slots.map((slot) => el("button", { type: "button",
    "data-slot": slot },
    `slot ${slot}`)));
  if (document.activeElement !== byId("turns")) byId("turns").value = state.turns;
  const count = itemsOf(state.turns).length;
  const said = !count ? "round robin" : state.turns === state.offered ? "the program's own" : "your own";
  byId("order-said").textContent = count ? `${said}, ${count} turn${count === 1 ? "" : "s"}` : said;
  byId("its-turns").hidden = !state.offered || state.turns === state.offered;
}

// The items of a schedule one by one, `0*3` as three.
const itemsOf = (turns) => turns.trim().split(/\s+/).filter(Boolean).flatMap((item) => {
  const [slot, count] = item.split("*");
  return Array(Math.min(100_000, Number(count || 1) || 1)).fill(slot);
});

// The shortest text of items.
function textOf(items) {
  const runs = [];
  for (const item of items) {
    const last = runs[runs.length - 1];
    if (last && last[0] === item) last[1]++;
    else runs.push([item, 1]);
  }
  return runs.map(([item, count]) => (count > 1 ? `${item}*${count}` : item)).join(" ");
}

function setTurns(turns) {
  state.turns = turns;
  keep();
  showTurns();
  run("end", null);
}
