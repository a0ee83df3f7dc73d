// Memory by segment: the words that a source made or that some turn touches. Rows are made once, those of code and of
// long segments
// when they are opened; and only what differs is shown anew.

const memory = { rows: new Map(), parts: [], marked: [], now: null };
const ALWAYS = 64, LONG = 48, LONG_NAME = 11;

// The addresses that have a row, ascending: those of sources, those that some turn touches or changes, and those that
// hold something.
function addressesShown() {
  const places = new Set();
  for (const region of RUN.names.regions) {
    for (let at = 0; at < Math.min(region.words, ALWAYS); at++) places.add(region.base + 8 * at);
  }
  for (const [page, kept] of RUN.start.pages) kept.forEach(([at]) => places.add(page * PAGE_BYTES + 8 * at));
  for (const turn of TURNS) {
    if (turn.address >= 0) places.add(turn.address);
    for (const [kind, address] of turn.changes) if (kind === CELL) places.add(address);
  }
  return [...places].sort((a, b) => a - b);
}

// The same by segments, and by pages where no segment is known.
function partsShown() {
  const parts = [];
  for (const address of addressesShown()) {
    const region = regionAt(address), page = Math.floor(address / PAGE_BYTES);
    const key = region || page;
    if (!parts.length || parts[parts.length - 1].key !== key) parts.push({ key, region, page, addresses: [] });
    parts[parts.length - 1].addresses.push(address);
  }
  return parts;
}

function gapRow(words) {
  return el("tr", { class: "gap" }, el("td", { colspan: 3 }, `… ${several(words, "word")} that nobody touches`));
}

// The name of a word in its segment; of a long one only how far it is from the segment's beginning.
function placeIn(address) {
  const name = showAddress(address), region = regionAt(address);
  if (!region || name.length <= LONG_NAME) return name;
  if (name === region.name) return "+0";
  return name.startsWith(`${region.name}+`) ? name.slice(region.name.length) : name;
}

function memoryRow(address) {
  const row = el("tr", { "data-address": address }, el("th", { scope: "row" }, placeIn(address)),
    el("td", { class: "bit" }), el("td", { class: "value" }));
  memory.rows.set(address, { row, word: undefined, full: undefined });
  return row;
}

function partRows({ region, page, addresses }) {
  const rows = [], end = region ? region.base + 8 * region.words : 0;
  let at = region ? region.base : page * PAGE_BYTES;
  for (const address of addresses) {
    if (address > at) rows.push(gapRow((address - at) / 8));
    rows.push(memoryRow(address));
    at = address + 8;
  }
  if (end > at) rows.push(gapRow((end - at) / 8));
  return rows;
}

function partTitle({ region, page }, code) {
  const tint = code ? `--tint:var(--tint-${code.tint})` : null;
  const what = code ? { code: ", code", gate: ", a gate", kernel: ", privileged code" }[code.kind] : "";
  return [el("span", { class: code ? swatchClass(code) : "swatch", style: tint, "aria-hidden": "true" }),
    el("strong", {}, region ? region.name : `page ${hex(page)}`),
    el("span", { class: "soft" }, region ? ` ${bytesText(region.log)} at ${hex(region.base)}${what}`
      : ` at ${hex(page * PAGE_BYTES)}`),
    " ", el("span", { class: "touch" })];
}

// Makes the rows of a part, and shows the words that are there now.
function fillPart(part) {
  part.filled = true;
  part.body.replaceChildren(...partRows(part));
  if (!memory.now) return;
  part.addresses.forEach((address) => showCell(address, memory.rows.get(address), memory.now.cell(address)));
  markMemory();
}

function buildMemory() {
  memory.parts = partsShown();
  byId("segments").replaceChildren(...memory.parts.map((part) => {
    const { region, page, addresses } = part, code = region && codeAt(region.base), title = partTitle(part, code);
    part.body = el("tbody", {});
    part.touch = title[title.length - 1];
    const table = el("table", { class: "cells" },
      el("caption", { class: "unseen" }, region ? region.name : `page ${hex(page)}`),
      el("colgroup", {}, ["place", "bit", "word"].map((name) => el("col", { class: name }))),
      el("thead", { class: "unseen" }, el("tr", {},
        ["place", "bit", "word"].map((text) => el("th", { scope: "col" }, text)))), part.body);
    if (!code && addresses.length <= LONG) {
      fillPart(part);
      return el("div", { class: "segment" }, el("div", { class: "title" }, title), table);
    }
    const details = el("details", { class: "segment" }, el("summary", {}, title), table);
    details.addEventListener("toggle", () => details.open && !part.filled && fillPart(part));
    return details;
  }));
}

// A word of memory: in code an instruction is shown as one.
function cellShown(address, word, key) {
  const instruction = codeAt(address) && instructionOf(word), made = regionAt(address);
  if (instruction && (word !== ZERO || (made
    && address < made.base + 8 * made.words))) return instructionText(instruction, address);
  return wordButton(word, key, showAddress(address));
}

function showCell(address, entry, cell) {
  const { row } = entry, [word, full] = cell || [null, 1], key = `m${address}`;
  if (entry.word === word && entry.full === full) return;
  entry.word = word;
  entry.full = full;
  row.classList.toggle("empty", !full);
  row.dataset.word = word || "";
  row.dataset.full = full ? "full" : "empty";
  row.cells[1].textContent = word === null ? "" : full ? "● full" : "○ empty";
  row.cells[2].replaceChildren(word === null ? "no page is here" : cellShown(address, word, key));
  const next = row.nextElementSibling;
  if (next && next.classList.contains("parts")) next.remove();
  if (opened.has(key) && word !== null) row.after(partsRow(word, 3));
}

const TOUCHED = { load: "loads", loadset: "loads, sets the bit", store: "stores" };

// Marks the words that this turn changed and touched; a part that is closed says it in its title.
function markMemory() {
  const { turn } = memory;
  memory.marked.forEach((undo) => undo());
  memory.marked = [];
  const mark = (row, name) => {
    row.classList.add(name);
    memory.marked.push(() => row.classList.remove(name));
  };
  for (const [kind, address] of turn ? turn.changes : []) {
    if (kind === CELL && memory.rows.has(address)) mark(memory.rows.get(address).row, "changed");
  }
  if (!turn || turn.address < 0) return;
  const said = turn.outcome === "did" ? TOUCHED[turn.access] : `tries: ${TOUCHED[turn.access]}`,
    entry = memory.rows.get(turn.address);
  if (entry) {
    entry.row.cells[0].dataset.touch = said;
    return mark(entry.row, "touched");
  }
  const part = memory.parts.find(({ addresses }) => addresses[lastUpTo(addresses, turn.address)] === turn.address);
  if (!part) return;
  const cell = memory.now.cell(turn.address);
  part.touch.textContent = `${said} ${showAddress(turn.address)}${cell ? `: ${cellText(cell)}` : ""}`;
  memory.marked.push(() => { part.touch.textContent = ""; });
}

function showMemory(place, now) {
  memory.turn = place ? TURNS[place - 1] : null;
  memory.now = now;
  for (const [address, entry] of memory.rows) showCell(address, entry, now.cell(address));
  markMemory();
}
