// What the page works on: sources, breaks, the order of turns, an exercise. It is kept in this browser from one visit
// to the next.
"use strict";

const root = document.documentElement;
const byId = (id) => document.getElementById(id);

// An element with attributes and children; a child that is null is left out.
function el(tag, attributes, ...children) {
  const made = document.createElement(tag);
  for (const [name, value] of Object.entries(attributes || {})) {
    if (value !== null && value !== undefined && value !== false) made.setAttribute(name, value === true ? "" : value);
  }
  made.append(...children.flat().filter((child) => child !== null && child !== undefined && child !== false));
  return made;
}

// What the server tells when the page opens: examples, lessons, exercises, words, panes and limits.
let about = null;
const KEPT = "workbench of mm";
// `offered` is the order of turns that comes with a program, `base` the texts that are there elsewhere too (those of
// examples, and what was saved), `begun` the files with which the server was started, and `version` goes up with each
// change of what an answer could be about.
const state = { files: [{ name: "mine.asm", text: "" }], at: 0, turns: "", offered: "", breaks: {}, exercise: null,
  slots: [], faults: [], level: "0", base: {}, begun: "", version: 0 };

// What an answer is about: the program, and for a run the order of turns.
const subjectOf = (pane) => `${state.version} ${["view", "report", "trace"].includes(pane) ? state.turns : ""}`;

const file = () => state.files[state.at];
const linesOf = (text) => text.split("\n");
const breaksOf = (name) => (state.breaks[name] = state.breaks[name] || []);

// What does not fit into the browser's store, or what it may not keep, stays as long as the page.
const unstored = new Map();

function store(key, value) {
  const text = JSON.stringify(value);
  try {
    localStorage.setItem(key, text);
    unstored.delete(key);
  } catch {
    unstored.set(key, text);
  }
}

function stored(key) {
  try {
    return JSON.parse(unstored.get(key) || localStorage.getItem(key));
  } catch {
    return null;
  }
}

// What is kept of a program.
function keepable() {
  const { files, at, turns, offered, breaks, exercise, level, base, begun } = state;
  return { files, at, turns, offered, breaks, exercise, level, base, begun };
}

const keep = () => store(KEPT, keepable());
const baseOf = (files) => Object.fromEntries(files.map(({ name, text }) => [name, text]));

// Whether somebody wrote here what is there nowhere else.
const isOwn = ({ files, base }) => files.some(({ name, text }) => text.trim() && (base || {})[name] !== text);

const isFile = (it) => it && typeof it.name === "string" && NAME.test(it.name) && typeof it.text === "string";
const NAME = /^[A-Za-z0-9_][A-Za-z0-9_ -]{0,39}\.(asm|c)$/;

// Takes what was kept, or what a link holds; whether there was something of use.
function take(kept) {
  if (!kept || !Array.isArray(kept.files) || !kept.files.length || !kept.files.every(isFile)) return false;
  state.files = kept.files.map(({ name, text }) => ({ name, text }));
  state.at = Number.isInteger(kept.at) && kept.at >= 0 && kept.at < state.files.length ? kept.at : 0;
  const textIn = (key) => (typeof kept[key] === "string" ? kept[key] : "");
  Object.assign(state, { turns: textIn("turns"), offered: textIn("offered"), begun: textIn("begun") });
  state.base = kept.base && typeof kept.base === "object" ? { ...kept.base } : {};
  state.version++;
  state.exercise = typeof kept.exercise === "string" ? kept.exercise : null;
  state.level = ["0", "1", "2", "3", "s"].includes(kept.level) ? kept.level : "0";
  state.breaks = {};
  for (const { name } of state.files) {
    const lines = kept.breaks && kept.breaks[name];
    if (Array.isArray(lines)) state.breaks[name] = lines.filter(Number.isInteger);
  }
  return true;
}

// Another program in place of this one, in round robin. `offered` is an order of turns that it comes with.
function takeProgram(files, offered = "", exercise = null) {
  take({ files, offered, exercise, level: state.level, base: baseOf(files) });
  forgetLink();
  keep();
  showAll();
}

// The address holds a program only as long as that is what the page shows.
function forgetLink() {
  if (location.hash) history.replaceState(null, "", location.pathname + location.search);
}

// A link holds the sources, packed where the browser can do that.
const packed = async (bytes, stream) => new Uint8Array(await new Response(new Blob([bytes]).stream()
  .pipeThrough(stream)).arrayBuffer());
const toLetters = (bytes) => btoa(Array.from(bytes, (byte) => String.fromCharCode(byte)).join("")).replaceAll("+", "-")
  .replaceAll("/", "_").replaceAll("=", "");
const fromLetters = (text) => Uint8Array.from(atob(text.replaceAll("-", "+").replaceAll("_", "/")),
  (letter) => letter.charCodeAt(0));
const LONGEST_LINK = 32_000;

async function linkOf() {
  const { files, turns, offered, exercise } = state, bytes = new TextEncoder().encode(JSON.stringify({ files, turns,
    offered, exercise }));
  const short = window.CompressionStream ? await packed(bytes, new CompressionStream("deflate-raw")) : null;
  return short ? `#z${toLetters(short)}` : `#p${toLetters(bytes)}`;
}

// The program that a link holds.
async function programIn(hash) {
  if (!/^#[zp][\w-]+$/.test(hash) || hash.length > LONGEST_LINK) return null;
  try {
    const bytes = fromLetters(hash.slice(2));
    const plain = hash[1] === "z" ? await packed(bytes, new DecompressionStream("deflate-raw")) : bytes;
    const program = JSON.parse(new TextDecoder().decode(plain));
    return program && Array.isArray(program.files) && program.files.every(isFile) ? program : null;
  } catch {
    return null;
  }
}
