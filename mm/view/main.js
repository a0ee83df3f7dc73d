// The cursor: where it is, and what moves it.

const cursor = { place: 0, playing: null, drawn: false };

function goTo(place) {
  cursor.place = Math.max(0, Math.min(TURNS.length, place));
  if (!cursor.drawn) requestAnimationFrame(render);
  cursor.drawn = true;
}

function render() {
  cursor.drawn = false;
  const { place } = cursor, before = place ? machineAt(place - 1) : null;
  const now = before ? before.copy() : machineAt(0);
  if (before) now.carryOut(TURNS[place - 1]);
  timeline.place = place;
  timeline.follow();
  timeline.draw();
  showTurn(place, before, now);
  showSource(place, now);
  showSlots(place, before, now);
  showOutputs(place, now);
  showQueues(now);
  showMemory(place, now);
  tellPlace(place, before);
  root.dataset.place = place;
  window.dispatchEvent(new Event("moved"));
}

function tellPlace(place, before) {
  const said = sayTurn(place, before), slider = byId("timeline");
  slider.setAttribute("aria-valuenow", place);
  slider.setAttribute("aria-valuetext", said);
  if (document.activeElement !== slider) byId("said").textContent = said;
  byId("cycle").value = place ? TURNS[place - 1].cycle : RUN.first - 1;
  byId("same").textContent = place ? `slot ${TURNS[place - 1].slot}` : `slot ${SLOTS[0]}`;
}

// Buttons that lead nowhere in this run are off.
function switchJumps() {
  for (const [name,
    test] of Object.entries(JUMPS)) document.querySelector(`[data-go="${name}"]`).disabled = !TURNS.some(test);
}

// The next place, in a direction, whose turn passes a test; null where there is none.
function nextPlace(test, way) {
  for (let at = cursor.place + way; at >= 1 && at <= TURNS.length; at += way) if (test(TURNS[at - 1])) return at;
  return null;
}

const chosenWord = () => Number(byId("word").value);
const slotNow = () => (cursor.place ? TURNS[cursor.place - 1].slot : SLOTS[0]);
const JUMPS = {
  same: (turn) => turn.slot === slotNow(),
  fault: (turn) => turn.fault > 0,
  entry: (turn) => Boolean(turn.entered),
  blocked: (turn) => turn.outcome === "blocked",
  access: (turn) => turn.address >= 0 && turn.address === chosenWord(),
};

// Goes to the next turn that passes a test; from the last one round to the first.
function jump(test, way = 1) {
  const found = nextPlace(test, way);
  if (found !== null) return goTo(found);
  const all = TURNS.map((turn, at) => at + 1).filter((at) => test(TURNS[at - 1]));
  if (all.length) goTo(way > 0 ? all[0] : all[all.length - 1]);
  else byId("said").textContent = "There is none";
}

// To the next turn of a line of a source; a click on a line leads there too.
const ofLine = (source, line) => (turn) => {
  const from = turn.fetch >= 0 ? lineAt(turn.fetch) : null;
  return Boolean(from) && from.source === source && from.line === line;
};

function jumpInLine(way) {
  const turn = cursor.place ? TURNS[cursor.place - 1] : null, from = turn && turn.fetch >= 0 ? lineAt(turn.fetch)
    : null;
  if (from) jump(ofLine(from.source, from.line), way);
}

// To the nearest turn of the lane above or below.
function changeLane(way) {
  const lane = SLOTS.indexOf(slotNow()) + way;
  if (lane < 0 || lane >= SLOTS.length) return;
  const test = (turn) => turn.slot === SLOTS[lane];
  const found = nextPlace(test, 1) ?? nextPlace(test, -1);
  if (found !== null) goTo(found);
}

function play() {
  const button = document.querySelector('[data-go="play"]');
  if (cursor.playing) {
    clearInterval(cursor.playing);
    cursor.playing = null;
  } else {
    if (cursor.place === TURNS.length) goTo(0);
    cursor.playing = setInterval(() => (cursor.place < TURNS.length ? goTo(cursor.place + 1) : play()), 700);
  }
  button.setAttribute("aria-pressed", `${Boolean(cursor.playing)}`);
  button.setAttribute("aria-label", cursor.playing ? "Pause (space)" : "Play (space)");
}

// The place of a cycle: that of the last turn up to it.
const placeOf = (cycle) => lastUpTo(TURNS, cycle, (turn) => turn.cycle) + 1;

const ACTIONS = {
  home: () => goTo(0),
  end: () => goTo(TURNS.length),
  back: () => goTo(cursor.place - 1),
  next: () => goTo(cursor.place + 1),
  play,
  in: () => timeline.zoom(1.4),
  out: () => timeline.zoom(1 / 1.4),
};

const KEYS = [
  ["ArrowLeft", "←", "one turn back", () => goTo(cursor.place - 1), () => jump(JUMPS.same, -1)],
  ["ArrowRight", "→", "one turn on (with Shift: the next turn of the same slot)", () => goTo(cursor.place + 1),
    () => jump(JUMPS.same)],
  ["ArrowUp", "↑", "to the lane above", () => changeLane(-1)],
  ["ArrowDown", "↓", "to the lane below", () => changeLane(1)],
  ["PageUp", "Page up", "ten turns back", () => goTo(cursor.place - 10)],
  ["PageDown", "Page down", "ten turns on", () => goTo(cursor.place + 10)],
  ["Home", "Home", "to the start", ACTIONS.home],
  ["End", "End", "to the end", ACTIONS.end],
  ["f", "f", "the next fault", () => jump(JUMPS.fault), () => jump(JUMPS.fault, -1)],
  ["e", "e", "the next entry of a gate", () => jump(JUMPS.entry), () => jump(JUMPS.entry, -1)],
  ["b", "b", "the next blocked turn", () => jump(JUMPS.blocked), () => jump(JUMPS.blocked, -1)],
  ["a", "a", "the next access of the chosen word", () => jump(JUMPS.access), () => jump(JUMPS.access, -1)],
  ["l", "l", "the next turn of this turn's line", () => jumpInLine(1), () => jumpInLine(-1)],
  [" ", "Space", "play, and stop", play],
  ["+", "+", "larger boxes", ACTIONS.in],
  ["-", "−", "smaller boxes", ACTIONS.out],
  ["?", "?", "this list", () => openHelp()],
];

// Lane keys and Page keys move the page itself unless the timeline has the focus.
const ONLY_ON_TIMELINE = new Set(["ArrowUp", "ArrowDown", "PageUp", "PageDown"]);
const inField = (target) => target.matches("input:not([type='checkbox']), select, textarea")
  || target.closest("dialog");
let letters = true;

function onKey(event) {
  if (event.ctrlKey || event.metaKey || event.altKey || inField(event.target)) return;
  const { key } = event, row = KEYS.find(([name]) => name === key || name === key.toLowerCase());
  if (!row || (ONLY_ON_TIMELINE.has(key) && document.activeElement !== byId("timeline"))) return;
  if (!letters && key.length === 1 && event.target !== byId("timeline")) return;
  if (key === " " && event.target.matches("button, summary, input")) return;
  event.preventDefault();
  const [, , , plain, shifted] = row;
  (event.shiftKey && shifted && key !== "?" ? shifted : plain)();
}

function openHelp() {
  const help = byId("help"), close = el("button", { type: "button" }, "Close"),
    box = el("input", { type: "checkbox", id: "letters" });
  box.checked = letters;
  box.addEventListener("change", () => { letters = box.checked; });
  close.addEventListener("click", () => help.close());
  help.replaceChildren(el("h2", { id: "help-title" }, "Keys"),
    el("table", {}, el("tbody", {}, KEYS.map(([, shown, says]) => el("tr", {},
      el("th", { scope: "row" }, el("kbd", {}, shown)), el("td", {}, says))))),
    el("p", {},
      "With Shift, a letter goes back. Click on a word to take it apart, ",
      "and on a line of the source to go to its turns. ",
      "Lanes and pages move while the timeline has the focus."),
    el("p", {}, el("label", {}, box, " letter keys work anywhere on the page")), close);
  help.showModal();
}

// The pointer: a press or a drag on the timeline or its overview.
function watchPointer(target, placeAt) {
  const move = (event) => goTo(placeAt(event.clientX - target.getBoundingClientRect().left));
  target.addEventListener("pointerdown", (event) => {
    if (event.button) return;
    target.setPointerCapture(event.pointerId);
    move(event);
  });
  target.addEventListener("pointermove", (event) => {
    if (event.buttons & 1) move(event);
  });
}

function watchTip() {
  const tip = byId("tip"), line = byId("timeline");
  line.addEventListener("pointermove", (event) => {
    const place = timeline.placeAt(event.clientX - line.getBoundingClientRect().left);
    tip.hidden = event.pointerType === "touch" || event.buttons !== 0 || !TURNS.length;
    if (tip.hidden) return;
    tip.textContent = sayTurn(place, machineAt(place - 1));
    tip.style.left = `${Math.min(event.clientX + 12, window.innerWidth - tip.offsetWidth - 8)}px`;
    tip.style.top = `${event.clientY + 18}px`;
  });
  line.addEventListener("pointerleave", () => { tip.hidden = true; });
}

function setTheme(theme) {
  if (theme) root.dataset.theme = theme;
  const dark = theme ? theme === "dark" : matchMedia("(prefers-color-scheme: dark)").matches;
  byId("theme").textContent = dark ? "Light" : "Dark";
  byId("theme").onclick = () => setTheme(dark ? "light" : "dark");
  readColours();
  layOut();
}

function setSize(by) {
  root.dataset.size = Math.max(0, Math.min(3, Number(root.dataset.size || 0) + by));
  timeline.zoomed = false;
  layOut();
}

function layOut() {
  timeline.measure();
  timeline.overview = null;
  buildLegend();
  timeline.follow();
  timeline.draw();
  const stage = byId("stage");
  stage.classList.toggle("stays", window.innerWidth > 735 && stage.offsetHeight < window.innerHeight * 0.42);
}

function about() {
  const notes = [];
  if (!TURNS.length && RUN.first > 1) notes.push(`The run has no turn from cycle ${RUN.first} on.`);
  const whole = RUN.first === 1 && !RUN.stuck && !RUN.goes_on;
  const some = TURNS.length ? `cycles ${RUN.first} to ${RUN.last}` : `after ${several(RUN.cycles, "cycle")}`;
  const shown = whole ? several(RUN.cycles, "cycle") : some;
  const stuck = RUN.stuck ? "; nothing can change any more after that: each slot that runs waits" : "";
  byId("about").textContent = `${shown}, ${RUN.order}${stuck}`;
  if (RUN.goes_on) {
    notes.push(`The run goes on: this page shows ${several(TURNS.length, "turn")}, up to cycle ${RUN.last}.`,
      el("span", { class: "alone" }, ` With --from ${RUN.last + 1} mm view shows the next.`));
  }
  byId("notes").replaceChildren(...notes);
  byId("notes").hidden = !notes.length;
  byId("of").textContent = `of ${RUN.first > 1 ? `${RUN.first} to ` : ""}${RUN.last}`;
}

function fillWords() {
  const places = [...new Set(TURNS.filter((turn) => turn.address >= 0).map((turn) => turn.address))].sort((a,
    b) => a - b);
  byId("word").replaceChildren(...places.map((address) => el("option", { value: address }, showAddress(address))));
  document.querySelector(".access").hidden = !places.length;
}

function begin() {
  const slider = byId("timeline");
  slider.setAttribute("aria-valuemin", 0);
  slider.setAttribute("aria-valuemax", TURNS.length);
  about();
  buildLanes();
  buildSources();
  buildMemory();
  buildAudit();
  fillWords();
  switchJumps();
  setTheme(null);
  render();
  document.addEventListener("keydown", onKey);
  document.addEventListener("click", (event) => {
    const go = event.target.closest("[data-go]"), word = event.target.closest(".word");
    if (go) (ACTIONS[go.dataset.go] || (() => jump(JUMPS[go.dataset.go], event.shiftKey ? -1 : 1)))();
    if (word) toggle(word);
    const line = event.target.closest("#lines li[data-line]");
    if (line && !getSelection().toString()) jump(ofLine(source.shown, Number(line.dataset.line)), event.shiftKey ? -1
      : 1);
  });
  byId("cycle").min = RUN.first - 1;
  byId("cycle").max = RUN.last;
  byId("cycle").addEventListener("change", () => goTo(placeOf(Number(byId("cycle").value))));
  byId("word").addEventListener("change", switchJumps);
  byId("zeros").addEventListener("change", render);
  byId("base").addEventListener("change", chooseBase);
  byId("smaller").addEventListener("click", () => setSize(-1));
  byId("larger").addEventListener("click", () => setSize(1));
  byId("keys").addEventListener("click", openHelp);
  watchPointer(slider, (x) => timeline.placeAt(x));
  watchPointer(byId("overview"), (x) => Math.round(x / byId("overview").clientWidth * TURNS.length));
  watchTip();
  new ResizeObserver(layOut).observe(slider);
  matchMedia("(prefers-color-scheme: dark)").addEventListener("change", () => setTheme(root.dataset.theme || null));
}

// Chooses how integers are written, in registers and in memory.
function chooseBase() {
  numbers.base = byId("base").value;
  for (const entry of memory.rows.values()) entry.word = undefined;
  render();
}

begin();
// For a page around this one.
window.shown = { RUN, TURNS, cursor, lineAt, originOf, ofLine, machineAt };
