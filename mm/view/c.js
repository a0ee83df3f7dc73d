// Programs in C: the line of C at an address, and the variables of its function.

const C = RUN.names.c;

// The line of C at an address, its function, and its variables; null where none is known.
function cPlace(address) {
  const region = C && regionAt(address);
  if (!region) return null;
  const found = C.places[lastUpTo(C.places, address, ([start]) => start)];
  if (!found || found[0] < region.base || found[1] < 0) return null;
  const [, line, state] = found, [source, number, name] = C.lines[line];
  return { source, line: number, name, variables: state < 0 ? [] : C.states[state] };
}

function cText({ source, line, name }) {
  const { path, lines } = RUN.names.sources[source], text = (lines[line - 1] || "").trim();
  return `${path}:${line}, in ${name}${text ? `: ${text}` : ""}`;
}

const cWord = (kind, bits) => kind + BigInt.asUintN(64, bits).toString(16).padStart(16, "0");

// A term of a place: a register, the word at a distance from the stack pointer, the object that begins there, the word
// of a pointer to a global, or a number; null where it is nowhere.
function cTerm(term, slot, machine) {
  if (term === "-") return null;
  if (term[0] === "r") return slot.registers[Number(term.slice(1))];
  if (term[0] === "p") return term;
  if (term[0] !== "s" && term[0] !== "f") return cWord("i", BigInt(term));
  const stack = pointerOf(slot.registers[15]);
  if (!stack) return null;
  const [by, log] = term.slice(1).split(":"), at = stack.address + BigInt(by);
  if (term[0] === "f") return cWord("p", 2n << 60n | BigInt(log) << 54n | at);
  const cell = machine.cell(Number(at));
  return cell && cell[0];
}

// The sum of terms as a word, which is a pointer where the first is one and the sum stays in its segment.
function cSum(words) {
  if (words.some((word) => word === null)) return null;
  const [first, ...others] = words;
  const by = others.reduce((sum, word) => sum + BigInt.asIntN(64, bitsOf(word)), 0n), pointer = pointerOf(first);
  const stays = pointer && pointer.address + by >= pointer.base && pointer.address + by < pointer.end;
  return cWord(stays ? "p" : "i", bitsOf(first) + by);
}

// The bytes from an address on as a number; null where no page is.
function cBytes(machine, address, size) {
  let found = 0n;
  for (let at = 0; at < size; at++) {
    const cell = machine.cell(Math.floor((address + at) / 8) * 8);
    if (!cell) return null;
    found |= (bitsOf(cell[0]) >> BigInt(((address + at) % 8) * 8) & 255n) << BigInt(8 * at);
  }
  return found;
}

// The name of a value of an enumeration, whose numbers have a sign if one of them is below 0.
function cValueName(bits, long, names) {
  const number = Object.keys(names).some((key) => key[0] === "-") ? BigInt.asIntN(long, bits) : bits;
  return names[number] || `${number}`;
}

function cNumber(bits, [, , size, how, bit, width]) {
  const long = width || 8 * Math.min(size, 8), cut = BigInt.asUintN(long, bits >> BigInt(bit));
  if (how === "other") return `the bits ${hex(cut)}`;
  if (typeof how === "object") return cValueName(cut, long, how);
  if (how === "uint" && cut >= 65536n) return `${cut} ${hex(cut)}`;
  return integerText(cWord("i", how === "int" ? BigInt.asIntN(long, cut) : cut));
}

// A word as a leaf of its type.
function cWordText(word, leaf) {
  if (tagged(word)) return wordText(word);
  return leaf[3] === "pointer" ? `no pointer (${integerText(word)})` : cNumber(bitsOf(word), leaf);
}

function cTextOf(machine, address, size) {
  const bytes = [];
  for (let at = 0; at < size; at++) bytes.push(Number(cBytes(machine, address + at, 1) ?? 0n));
  while (bytes.length && bytes[bytes.length - 1] === 0) bytes.pop();
  return `"${bytes.map(byteText).join("")}"`;
}

// A leaf of a variable that is in memory.
function cLeaf(machine, start, leaf) {
  const [, at, size, how] = leaf, address = start + at;
  if (how === "text") return cTextOf(machine, address, size);
  const cell = size === 8 && address % 8 === 0 ? machine.cell(address) : null;
  if (cell) return cWordText(cell[0], leaf);
  const bits = cBytes(machine, address, size);
  return bits === null ? "on no page" : cWordText(cWord("i", bits), leaf);
}

// The rows of a variable: its parts and what they hold.
function cRows([name, where, type], slot, machine) {
  const leaves = C.types[type], inMemory = where[0] === "*";
  const word = cSum(where.replace("*", "").split("+").map((term) => cTerm(term, slot, machine)));
  if (word === null) return [[name, "not there"]];
  if (inMemory) {
    const pointer = pointerOf(word), start = Number(pointer ? pointer.address : bitsOf(word));
    return leaves.map((leaf) => [name + leaf[0], cLeaf(machine, start, leaf)]);
  }
  const part = (at) => (at ? cWord("i", bitsOf(word) >> BigInt(8 * at)) : word);
  return leaves.filter(([, at]) => at < 8).map((leaf) => [name + leaf[0], cWordText(part(leaf[1]), leaf)]);
}

// The variables of the function in whose line a slot stands, as a table; null where there are none.
function cVariables(slot, machine) {
  const pointer = pointerOf(slot.ip), place = pointer && cPlace(Number(pointer.address));
  if (!place || !place.variables.length) return null;
  const rows = place.variables.flatMap((variable) => cRows(variable, slot, machine));
  return el("table", { class: "changes variables" }, el("caption", {}, `Variables of ${place.name}`),
    el("thead", { class: "unseen" }, el("tr", {}, ["variable", "it is"].map((text) => el("th", { scope: "col" },
      text)))),
    el("tbody", {}, rows.map(([name, said]) => el("tr", {}, el("th", { scope: "row" }, name),
      el("td", { class: "mono" }, said)))));
}
