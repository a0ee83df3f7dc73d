// This turn in words, and its line in the source.

// The instruction of a turn, by memory before it.
function turnInstruction(turn, before) {
  const cell = turn.fetch >= 0 ? before.cell(turn.fetch) : null;
  return cell ? instructionOf(cell[0]) : null;
}

function turnText(turn, before) {
  if (turn.outcome === "delivered") return `a load arrives in r${turn.number}`;
  if (turn.fetch < 0) return "nothing was fetched";
  const instruction = turnInstruction(turn, before), cell = before.cell(turn.fetch);
  if (instruction) return instructionText(instruction, turn.fetch);
  return cell ? `no instruction: ${wordText(cell[0])}` : "no page is here";
}

// The marks of a segment's swatch, as those of its boxes.
const swatchClass = (code) => `swatch ${code.kind}${code.late ? " late" : ""}`;

// What a blocked turn waits for.
function waitText(turn, before) {
  const instruction = turnInstruction(turn, before);
  const came = turn.changes.find(([kind]) => kind === REGISTER);
  const whose = came && came[1] !== turn.slot ? ` of slot ${came[1]}` : "";
  if (came) return `a register is needed whose load has not arrived; r${came[2]}${whose} has arrived meanwhile`;
  if (!instruction || instruction.operation.name === "evt") return "it waits for a fault of a slot that it handles";
  const wanted = ["any", "full", "empty"][instruction.values.pre] || "as it is wanted";
  return turn.address >= 0 ? `it waits for ${showAddress(turn.address)} to be ${wanted}` : "it tries again";
}

// What a turn did, in sentences.
function deeds(turn, before) {
  const said = [], did = turn.outcome === "did";
  if (turn.entered) said.push(`enters ${codeOf(turn.entered).name} at ${showAddress(pointerOf(turn.entered).address)}`);
  if (turn.access && turn.address >= 0 && did) {
    const cell = before.cell(turn.address), place = showAddress(turn.address);
    if (turn.access === "store") said.push(`stores to ${place}`);
    else {
      const bit = turn.access === "load" ? "" : ", and sets its bit";
      said.push(`loads ${place}${bit}${cell ? `: ${wordText(cell[0])}` : ""}`);
    }
  }
  for (const [kind, a, b, c] of turn.changes) {
    if (kind === OUT) {
      const letter = b >= 32 && b < 127 ? ` '${String.fromCharCode(b)}'` : "";
      said.push(`prints ${b}${letter} for group ${a}`);
    }
    else if (kind === LOAD) said.push(`a load of r${b} is on its way: ${wordText(c)}`);
    else if (kind === EVENT) said.push(`${causeText(c)} goes to the queue of slot ${a}`);
    else if (kind === TAKEN) {
      const [slot, cause] = before.slots.get(a).queue[0];
      said.push(`reads the first event of its queue: slot ${slot}, ${causeText(cause)}`);
    } else if (kind === PAGE) said.push(`page ${hex(a)} is ${b ? "mapped" : "removed"}`);
  }
  return said;
}

// What a turn changed: of each thing its name, and how it was and is.
function changesOf(turn, before, now) {
  const rows = [], where = (slot) => (slot === turn.slot ? "" : ` of slot ${slot}`);
  for (const [kind, a, b] of turn.changes) {
    const old = before.slots.get(a), its = now.slots.get(a);
    if (kind === REGISTER) rows.push([`r${b}${where(a)}`, wordText(old.registers[b]), wordText(its.registers[b])]);
    else if (kind === STATE) rows.push([`slot ${a}`, stateText(old), stateText(its)]);
    else if (kind === CELL) {
      const [was, is] = [before.cell(a), now.cell(a)];
      rows.push([showAddress(a), was ? cellText(was) : "no page", cellText(is)]);
    }
  }
  return rows;
}

const cellText = ([word, full]) => wordText(word) + (full ? "" : ", empty");

function placeText(turn) {
  if (turn.fetch < 0) return "";
  const origin = originOf(turn.fetch);
  const line = origin ? `: line ${origin.line} of ${RUN.names.sources[origin.source].path}` : "";
  return `at ${showAddress(turn.fetch)}${line}`;
}

function showTurn(place, before, now) {
  const pane = byId("turn");
  if (!place) {
    return pane.replaceChildren(
      el("h2", { id: "turn-title" }, RUN.first > 1 ? `Before cycle ${RUN.first}` : "The start"),
      el("p", {}, TURNS.length ? "Before the first turn: what the image puts into registers and memory."
        : "No slot takes a turn."),
    );
  }
  const turn = TURNS[place - 1], code = codeOf(RAN[place - 1]), reasons = RUN.why[place - 1] || [];
  const title = turn.outcome === "delivered" ? `Cycle ${turn.cycle}: the port of slot ${turn.slot}`
    : `Cycle ${turn.cycle}: slot ${turn.slot}, its turn ${turn.number}`;
  const rows = changesOf(turn, before, now), ofC = turn.fetch >= 0 ? cPlace(turn.fetch) : null;
  pane.replaceChildren(...[
    el("h2", { id: "turn-title" }, title),
    el("p", { class: "what" }, el("code", {}, turnText(turn, before))),
    el("p", { class: "where" }, el("span", { class: swatchClass(code), style: `--tint:var(--tint-${code.tint})`,
      "aria-hidden": "true" }), `in ${codeText(code)}, `, placeText(turn)),
    ofC ? el("p", { class: "where" }, cText(ofC)) : null,
    turn.fault ? el("div", { class: "fault" },
      el("p", {}, el("strong", {}, `${causeText(turn.fault)}: `), CAUSES.get(turn.fault).meaning),
      reasons.map((line) => el("p", {}, line))) : null,
    turn.outcome === "blocked" ? el("p", { class: "waits" }, `Blocked: ${waitText(turn, before)}.`) : null,
    el("ul", {}, deeds(turn, before).map((said) => el("li", {}, said))),
    rows.length ? el("table", { class: "changes" }, el("caption", { class: "unseen" }, "What this turn changed"),
      el("thead", {}, el("tr", {}, ["changed", "before", "after"].map((text) => el("th", { scope: "col" }, text)))),
      el("tbody", {}, rows.map(([what, was, is]) => el("tr", {}, el("th", { scope: "row" }, what),
        el("td", { class: "mono" }, was), el("td", { class: "mono" }, is)))))
      : el("p", { class: "soft" }, turn.fault ? "No register and no word changed." : ""),
    cVariables(now.slots.get(turn.slot), now),
  ].filter(Boolean));
}

// One sentence for the screen reader and for the tip of the mouse.
function sayTurn(place, before) {
  if (!place) return "Before the first turn";
  const turn = TURNS[place - 1], more = deeds(turn, before);
  if (turn.fault) more.push(causeText(turn.fault));
  if (turn.outcome === "blocked") more.push(waitText(turn, before));
  const at = turn.fetch >= 0 ? ` at ${showAddress(turn.fetch)}` : "";
  return `Cycle ${turn.cycle}, slot ${turn.slot}${at}: ${[turnText(turn, before), ...more].join("; ")}`;
}

// The source: each line once, and marks at those where slots stand. Where it was made of C, the lines of C are shown,
// until another file is chosen.
const HEAD = /^(\s*(?:[A-Za-z_]\w*:)?\s*)(\.?[A-Za-z_]\w*)?/;
const source = { lists: [], shown: null, marked: [], inC: true };

const lineOfC = (text, at) => el("li", { "data-line": at + 1 }, el("span", { class: "number" }, `${at + 1}`),
  el("span", { class: "stand" }), el("span", {}, text));

// The line to show for an address: that of C, unless another source was chosen.
function lineAt(address) {
  const ofC = source.inC ? cPlace(address) : null;
  return ofC && RUN.names.sources[ofC.source].lines.length ? ofC : originOf(address);
}

function sourceLine(text, at) {
  const cut = text.indexOf(";"), code = cut < 0 ? text : text.slice(0, cut), [, label, head = ""] = HEAD.exec(code);
  return el("li", { "data-line": at + 1 }, el("span", { class: "number" }, `${at + 1}`), el("span", { class: "stand" }),
    el("span", {}, label, head ? el("span", { class: "head" }, head) : "", code.slice(label.length + head.length),
      cut < 0 ? "" : el("span", { class: "comment" }, text.slice(cut))));
}

function buildSources() {
  const { sources } = RUN.names;
  source.lists = sources.map(({ lines, c }) => el("ol", {}, lines.map(c ? lineOfC : sourceLine)));
  byId("file").replaceChildren(...sources.flatMap(({ path, lines }, at) =>
    (lines.length ? [el("option", { value: at }, path)] : [])));
  byId("files").hidden = byId("file").length < 2;
  byId("source-title").textContent = sources.length === 1 ? sources[0].path : sources.length ? "Source" : "Code";
  byId("file").addEventListener("change", () => chooseFile(Number(byId("file").value)));
}

// Opens a file that somebody chose; from then on lines of C are shown, or lines of what was made of them.
function chooseFile(at) {
  source.inC = Boolean(RUN.names.sources[at].c);
  render();
  openSource(at);
}

function openSource(at) {
  if (source.shown === at) return;
  source.shown = at;
  byId("file").value = at;
  byId("lines").replaceChildren(source.lists[at]);
}

// The words around an address, where no source is known.
function listing(machine, address) {
  const items = [];
  for (let at = Math.max(0, address - 64); at <= address + 64; at += 8) {
    const cell = machine.cell(at), instruction = cell && instructionOf(cell[0]);
    if (cell) {
      items.push(el("li", { class: at === address ? "now" : null, "aria-current": at === address ? "true" : null,
        "data-address": at },
        el("span", { class: "number" }, ""), el("span", { class: "stand" }, standing(machine, at)),
        `${hex(at)}  ${instruction ? instructionText(instruction, at) : wordText(cell[0])}`));
    }
  }
  source.shown = null;
  byId("lines").replaceChildren(el("ol", {}, items));
}

const standing = (machine, address) => [...machine.slots.values()].filter((slot) => slot.state !== "halted"
  && Number(pointerOf(slot.ip).address) === address)
  .map((slot) => `s${slot.slot}`).join("");

function showSource(place, now) {
  const turn = place ? TURNS[place - 1] : null;
  const fetch = turn && turn.fetch >= 0 ? turn.fetch
    : Number(pointerOf(now.slots.get(turn ? turn.slot : SLOTS[0]).ip).address);
  const origin = lineAt(fetch);
  if (!origin) return source.shown !== null && !turn ? null : listing(now, fetch);
  openSource(origin.source);
  source.marked.forEach((item) => {
    item.classList.remove("now");
    item.removeAttribute("aria-current");
    item.querySelector(".stand").textContent = "";
  });
  source.marked = [];
  const mark = (from, text, isNow) => {
    const item = source.lists[from.source].children[from.line - 1];
    if (!item) return;
    if (isNow) {
      item.classList.add("now");
      item.setAttribute("aria-current", "true");
    }
    item.querySelector(".stand").textContent += text;
    source.marked.push(item);
  };
  for (const slot of now.slots.values()) {
    const stands = lineAt(Number(pointerOf(slot.ip).address));
    if (stands) mark(stands, `s${slot.slot}`, false);
  }
  if (turn) mark(origin, "", true);
  const item = source.lists[origin.source].children[origin.line - 1];
  if (item) scrollSource(item);
}

// Scrolls the source alone, and never the page.
function scrollSource(item) {
  const box = byId("lines"), top = item.offsetTop;
  if (top < box.scrollTop + 40
    || top > box.scrollTop + box.clientHeight - 60) box.scrollTop = top - box.clientHeight / 2.5;
}
