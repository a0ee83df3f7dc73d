// Words, pointers and instructions, spelled as `mm run` spells them. A word is a text: `i` or `p`, and 16 hexadecimal
// digits.
"use strict";

const RUN = JSON.parse(document.getElementById("run").textContent);
const ZERO = "i0000000000000000";
const PERMISSIONS = new Map(RUN.tables.permissions.map(([code, short, full]) => [code, { code, short, full }]));
const OPERATIONS = new Map(RUN.tables.operations.map(([number, name, operands]) => [number,
  { number, name, operands }]));
const CAUSES = new Map(RUN.tables.causes.map(([number, title, meaning]) => [number, { number, title, meaning }]));
const OUTCOMES = ["did", "blocked", "faulted", "delivered"];
const ACCESSES = [null, "load", "loadset", "store"];
const IP = 0, STATE = 1, REGISTER = 2, LOAD = 3, EVENT = 4, TAKEN = 5, OUT = 6, PAGE = 7, CELL = 8;
const PAGE_BYTES = 4096;

const tagged = (word) => word[0] === "p";
const bitsOf = (word) => BigInt("0x" + word.slice(1));
const hex = (number) => "0x" + number.toString(16);
const several = (count, what) => `${count} ${what}${count === 1 ? "" : "s"}`;

// The last place in an ascending list whose value is not above a number; -1 where there is none.
function lastUpTo(list, number, value = (it) => it) {
  let low = 0, high = list.length;
  while (low < high) {
    const middle = (low + high) >> 1;
    if (value(list[middle]) <= number) low = middle + 1;
    else high = middle;
  }
  return low - 1;
}

// The pointer that a word is: its permission, the logarithm of its length, its address, and where its segment begins.
const pointers = new Map();
function pointerOf(word) {
  if (!word || !tagged(word)) return null;
  let found = pointers.get(word);
  if (!found) {
    const bits = bitsOf(word), log = Number((bits >> 54n) & 63n), address = bits & ((1n << 54n) - 1n);
    const base = (address >> BigInt(log)) << BigInt(log);
    found = { permission: PERMISSIONS.get(Number(bits >> 60n)), log, address, base, end: base + (1n << BigInt(log)) };
    pointers.set(word, found);
  }
  return found;
}

function regionAt(address) {
  const at = lastUpTo(RUN.names.regions, address, (region) => region.base);
  const region = RUN.names.regions[at];
  return region && address < region.base + 2 ** region.log ? region : null;
}

// The name of an address: a label and how many bytes it is on, else its segment and how many; null where it has none.
function nameOf(address) {
  const at = Number(address), region = regionAt(at);
  if (!region) return null;
  const label = RUN.names.labels[lastUpTo(RUN.names.labels, at, (it) => it[0])];
  const [start, name] = label && label[0] > region.base ? label : [region.base, region.name];
  return at === start ? name : `${name}+${at - start}`;
}

const showAddress = (address) => nameOf(address) || hex(address);

// The line of a source that made the word at an address: the source's place, and the line's number from 1.
function originOf(address) {
  const region = regionAt(address);
  if (!region || region.source === null) return null;
  const line = region.lines[Math.floor((address - region.base) / 8)];
  return line ? { source: region.source, line } : null;
}

// How integers are written: as `mm run` does, or to one base alone.
const numbers = { base: "" };
const BASES = { 16: (bits) => hex(bits), 10: (bits) => `${BigInt.asIntN(64, bits)}`, 2: (bits) =>
  `0b${bits.toString(2)}` };

function integerText(word) {
  const bits = bitsOf(word), signed = BigInt.asIntN(64, bits);
  if (numbers.base) return BASES[numbers.base](bits);
  if (-65536n < signed && signed < 65536n) {
    return bits >= 32n && bits < 127n ? `${signed} '${String.fromCharCode(Number(bits))}'` : `${signed}`;
  }
  return `${signed} ${hex(bits)}`;
}

function wordText(word) {
  if (word === null) return "empty (its load has not arrived)";
  const pointer = pointerOf(word);
  return pointer ? `${pointer.permission.short} 2^${pointer.log} ${showAddress(pointer.address)}` : integerText(word);
}

function bytesText(log) {
  for (const [shift, unit] of [[50, "PiB"], [40, "TiB"], [30, "GiB"], [20, "MiB"], [10, "KiB"]]) {
    if (log >= shift) return `${2 ** (log - shift)} ${unit}`;
  }
  return several(2 ** log, "byte");
}

// The instruction that a word spells, with the values of its operands by field; null where it spells none.
const instructions = new Map();
function instructionOf(word) {
  if (!word || tagged(word)) return null;
  if (!instructions.has(word)) instructions.set(word, decode(word));
  return instructions.get(word);
}

function decode(word) {
  const high = parseInt(word.slice(1, 9), 16), low = parseInt(word.slice(9), 16) | 0;
  const operation = OPERATIONS.get(high >>> 24);
  if (!operation) return null;
  let again = operation.number << 24, number = 0;
  const values = {};
  for (const [field, shift, how, choices] of operation.operands) {
    if (how === "number" || how === "place") {
      values[field] = number = low;
    } else {
      values[field] = (high >>> (shift - 32)) & (choices.length ? 3 : 15);
      if (choices.length && values[field] >= choices.length) return null;
      again |= values[field] << (shift - 32);
    }
  }
  const limited = operation.name === "evt" && values.rd > 12;
  const outside = (operation.name === "rreg" || operation.name === "wreg") && (low < 0 || low > 15);
  return again >>> 0 === high >>> 0 && number === low && !limited && !outside ? { operation, values } : null;
}

// An instruction as a source has it, with the labels of branches.
function instructionText(instruction, address) {
  const { operation, values } = instruction;
  const operands = operation.operands.map(([field, , how, choices]) => {
    if (how === "register") return `r${values[field]}`;
    if (how === "choice") return choices[values[field]];
    return how === "place" ? nameOf(address + 8 * values[field]) || `${values[field]}` : `${values[field]}`;
  });
  return [operation.name, operands.join(", ")].filter(Boolean).join(" ");
}

const LETTERS = { 10: "\\n", 13: "\\r", 9: "\\t", 34: '\\"', 92: "\\\\" };
function byteText(byte) {
  if (LETTERS[byte]) return LETTERS[byte];
  return byte >= 32 && byte < 127 ? String.fromCharCode(byte) : `\\x${byte.toString(16).padStart(2, "0")}`;
}

const causeText = (number) => `fault ${number} ${CAUSES.get(number)?.title || ""}`.trim();

// A state in words that a person reads.
function stateText(slot) {
  if (slot.state === "faulted") return `stopped by ${causeText(slot.fault)}`;
  return { waiting: "faulted, waits for its handler", taken: "faulted, its handler has it" }[slot.state] || slot.state;
}
