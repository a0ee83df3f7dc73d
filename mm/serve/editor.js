// The editor: a text field, and below it the same text in colours, with mistakes, breaks and the line where the run
// stands.

const TOKEN = /(;.*)|(\.[A-Za-z_]\w*)|([A-Za-z_]\w*)(\s*:(?!:))?|(-?(?:0x[0-9A-Fa-f]+|[0-9]+)\b)|([ \t]+)|([,:+])|(.)/g;
const C_PARTS = [/(\/\/.*|\/\*.*?\*\/)/, /("(?:\\.|[^"\\])*"?|'(?:\\.|[^'\\])*'?)/, /([A-Za-z_]\w*)/,
  /(\b(?:0[xX][0-9A-Fa-f]+|[0-9]+)\b)/, /([^"'/\w]+|.)/];
const C_TOKEN = new RegExp(C_PARTS.map(({ source }) => source).join("|"), "g");
const C_WORDS = new Set(("auto break case char const continue default do double else enum extern float for goto if"
  + " inline int long register return short signed sizeof static struct switch typedef union unsigned void volatile"
  + " while").split(" "));
const WORD = /[.]?[A-Za-z_]\w*$/, REST = /^\w*/;
const inC = (name) => name.endsWith(".c");

// The names that a source defines: labels and segments, with the lines where they stand.
function namesOf(text) {
  const names = new Map();
  linesOf(text).forEach((line, at) => {
    const label = /^\s*([A-Za-z_]\w*)\s*:/.exec(line), segment = /^[^;]*\.segment\s+([A-Za-z_]\w*)/.exec(line);
    for (const found of [label, segment]) if (found && !names.has(found[1])) names.set(found[1], at + 1);
  });
  return names;
}

const allNames = () => new Map(state.files.filter(({ name }) => !inC(name)).flatMap(({ text }) => [...namesOf(text)]));

const spanOf = (kind, text) => (kind ? el("span", { class: kind }, text) : text);

// A line of assembly in colours. The first name that is not a label is an operation.
function inkOf(line, names) {
  const { operations, directives, permissions, choices } = about.words, made = [];
  let head = true;
  for (const [text, comment, directive, name, colon, number, , , other] of line.matchAll(TOKEN)) {
    let kind = "";
    if (comment) kind = "com";
    else if (directive) kind = directives[directive] ? "dir" : "bad";
    else if (name && colon !== undefined) kind = "lab";
    else if (name && head) kind = Object.hasOwn(operations, name) ? "op" : "bad";
    else if (name) kind = names.has(name) ? "use" : Object.hasOwn(permissions, name) || choices.includes(name) ? "dir"
      : "";
    else if (number) kind = "num";
    else if (other) kind = "bad";
    if ((name && colon === undefined) || (directive && directive !== ".empty")) head = false;
    made.push(spanOf(kind, text));
  }
  return made;
}

function inkOfC(line) {
  return [...line.matchAll(C_TOKEN)].map(([text, comment, string, name, number]) => spanOf(
    comment || line.trimStart().startsWith("#") ? "com" : string ? "dir" : name && C_WORDS.has(name) ? "op" : number
      ? "num" : "", text));
}

const ink = { lines: [], names: "", c: false };

// Colours the lines that are not as they were. Where names came or went, all of them are.
function colour() {
  const lines = linesOf(file().text), names = allNames(), c = inC(file().name), key = [...names.keys()].join(" ");
  const pre = byId("ink"), anew = key !== ink.names || c !== ink.c;
  while (pre.children.length > lines.length) pre.lastChild.remove();
  lines.forEach((line, at) => {
    if (!anew && ink.lines[at] === line && pre.children[at]) return;
    const made = c ? inkOfC(line) : inkOf(line, names);
    if (!pre.children[at]) pre.append(el("div", {}));
    pre.children[at].replaceChildren(...made);
  });
  Object.assign(ink, { lines, names: key, c });
}

// The numbers of the lines; a click on one sets a break there, or takes it away.
function showGutter() {
  const gutter = byId("gutter"), count = ink.lines.length, breaks = new Set(breaksOf(file().name));
  const wrong = new Set(state.faults.filter((fault) => fault.file === file().name).map(({ line }) => line));
  while (gutter.children.length > count) gutter.lastChild.remove();
  while (gutter.children.length < count) {
    const line = gutter.children.length + 1;
    gutter.append(el("button", { type: "button", tabindex: -1, "data-line": line }, el("span", { class: "stands" }),
      `${line}`));
  }
  [...gutter.children].forEach((button, at) => {
    const line = at + 1, isBreak = breaks.has(line);
    button.className = [isBreak && "break", wrong.has(line) && "wrong"].filter(Boolean).join(" ");
    button.setAttribute("aria-label", `line ${line}: break`);
    button.setAttribute("aria-pressed", `${isBreak}`);
    button.firstChild.textContent = state.stands && state.stands.get(`${file().name}:${line}`) || "";
  });
}

// Whether a run can stop at a line: in C at any that is not empty, else at one with an operation.
function carriedOut(line) {
  const text = linesOf(file().text)[line - 1] || "";
  if (inC(file().name)) return Boolean(text.trim());
  const found = /^\s*(?:[A-Za-z_]\w*\s*:)?\s*(?:\.empty\s+)?([A-Za-z_]\w*)/.exec(text);
  return Boolean(found) && Object.hasOwn(about.words.operations, found[1]);
}

function toggleBreak(line) {
  const lines = breaksOf(file().name), at = lines.indexOf(line);
  if (at < 0 && !carriedOut(line)) return tell(`line ${line} has no instruction, so nothing stops there`);
  if (at < 0) lines.push(line);
  else lines.splice(at, 1);
  keep();
  showGutter();
  const never = at < 0 && view.ready && !view.older && !turnsOf(file().name, line).length;
  if (never) tell(`the run that is shown has no turn at line ${line}`);
  else say(at < 0 ? `break at line ${line}` : `no break at line ${line}`);
}

// Breaks stay with their lines where lines come or go before them.
function moveBreaks(before, after) {
  const old = linesOf(before), now = linesOf(after), by = now.length - old.length;
  if (!by) return;
  let same = 0;
  while (same < old.length && old[same] === now[same]) same++;
  state.breaks[file().name] = breaksOf(file().name).map((line) => (line > same ? Math.max(1, line + by) : line));
}

// How far a letter of a line is from its beginning, in letters, with tabs.
function columnIn(line, letter) {
  let column = 0;
  for (const each of line.slice(0, letter)) column = each === "\t" ? (column | 7) + 1 : column + 1;
  return column;
}

const caretLine = () => linesOf(byId("text").value.slice(0, byId("text").selectionStart)).length;

// Mistakes below their text, what is said of them beside and below it, the line that is carried out next, and the one
// before. The outer elements have the letters of the source, by which the places are counted.
function showMarks() {
  const here = caretLine(), under = [], over = [], lines = ink.lines, top = (line) =>
    `top:calc(.3rem + ${line - 1} * var(--line))`;
  const beside = (line, column, kind, ...said) => over.push(el("div", { class: `row of-${kind}`,
    style: `${top(line)};left:calc(.6ch + ${column}ch)` }, el("div", { class: kind }, ...said)));
  for (const [kind, place] of [["at", state.done], ["now", state.now]]) {
    if (place && place.file === file().name) under.push(el("div", { class: kind, style: top(place.line) }));
  }
  for (const { line } of leaksOf(file().name)) under.push(el("div", { class: "leak", style: top(line) }));
  for (const fault of state.faults.filter((each) => each.file === file().name)) {
    const line = lines[fault.line - 1] || "", from = columnIn(line, fault.from), to = Math.max(from + 1, columnIn(line,
      fault.to));
    under.push(el("div", { class: "wrong",
      style: `${top(fault.line)};left:calc(.6ch + ${from}ch);width:${to - from}ch` }));
    if (fault.line === here && document.activeElement === byId("text")) {
      beside(fault.line + 1, Math.min(from, 24), "said", fault.message, fault.hints.map((hint) => el("div", {},
        `→ ${hint}`)));
    } else beside(fault.line, columnIn(line, line.length) + 2, "short", fault.message);
  }
  byId("under").replaceChildren(...under);
  byId("over").replaceChildren(...over);
}

function showMistakes() {
  byId("mistakes").replaceChildren(...state.faults.map((fault) => el("li", {},
    el("button", { type: "button", "data-file": fault.file, "data-line": fault.line, "data-letter": fault.from },
      `${fault.file}:${fault.line}: ${fault.message}`, fault.hints.map((hint) => el("span", { class: "hint" },
        `→ ${hint}`))))));
  byId("files").querySelectorAll("[role=tab]").forEach((tab, at) => {
    tab.classList.toggle("wrong", state.faults.some((fault) => fault.file === state.files[at].name));
  });
}

// The text field is as large as its text: what scrolls is the editor around it.
function fit() {
  const widest = ink.lines.reduce((most, line) => Math.max(most, columnIn(line, line.length)), 0);
  byId("paper").style.minWidth = `${widest + 4}ch`;
  byId("text").scrollTop = byId("text").scrollLeft = 0;
}

// Shows the text of the source; one that was not there before, from its beginning.
function showText() {
  const field = byId("text");
  if (field.value !== file().text) {
    field.value = file().text;
    field.setSelectionRange(0, 0);
    byId("editor").scrollTop = byId("editor").scrollLeft = 0;
  }
  field.setAttribute("aria-label", `Source ${file().name}`);
  showInk();
}

function showInk() {
  colour();
  fit();
  showGutter();
  showMarks();
}

// The word that ends at the caret, and the one around it.
function wordAt() {
  const field = byId("text"), at = field.selectionStart, before = field.value.slice(0, at);
  const line = before.slice(before.lastIndexOf("\n") + 1), begun = WORD.exec(line);
  const rest = REST.exec(field.value.slice(at))[0];
  return { begun: begun ? begun[0] : "", word: (begun ? begun[0] : "") + rest, line };
}

// What there is to say of the word at the caret.
function explain() {
  if (inC(file().name)) return byId("explains").replaceChildren();
  const { begun, word, line } = wordAt(), { operations, directives, permissions } = about.words,
    comment = line.includes(";");
  const names = allNames(), first = !/[A-Za-z_.]/.test(line.replace(/^\s*[A-Za-z_]\w*\s*:/, "").slice(0, -begun.length
    || undefined));
  let said = [];
  const row = Object.hasOwn(operations, word) ? operations[word] : Object.hasOwn(directives, word) ? directives[word]
    : null;
  if (comment || !word) said = [];
  else if (row && (first || !names.has(word))) said = [el("code", {}, row[0]), `: ${row[1]}. For example `, el("code",
    {}, row[2])];
  else if (names.has(word)) said = [el("code", {}, word), `: stands in line ${names.get(word)}`];
  else if (Object.hasOwn(permissions, word)) said = [el("code", {}, word), `: ${permissions[word]}`];
  byId("explains").replaceChildren(...(word || comment ? said : [el("button", { type: "button",
    "data-does": "instructions" }, "All instructions")]));
}

const HEAD_OF_LINE = /^\s*(?:[A-Za-z_]\w*\s*:)?\s*(?:\.empty\s+)?(\.?[A-Za-z_]\w*)\s+(.*)$/;

// What kind of word stands at the end of a line that is begun: its head's operand of that place.
function kindAt(line) {
  const head = HEAD_OF_LINE.exec(line), { operations, places } = about.words;
  if (!head) return null;
  const [, name, rest] = head, isOperation = Object.hasOwn(operations, name);
  const kinds = isOperation ? operations[name][3] : Object.hasOwn(places, name) ? places[name] : [];
  return kinds[rest.split(isOperation ? "," : /\s+/).length - 1];
}

// The words of a kind, each with what there is to say of it.
function wordsOf(kind) {
  if (Array.isArray(kind)) return kind.map((name) => [name, ""]);
  if (kind === "register") return Array.from({ length: 16 }, (_, number) => [`r${number}`, ""]);
  if (kind === "permission") return Object.entries(about.words.permissions);
  return kind === "name" ? [...allNames()].map(([name, number]) => [name, `line ${number}`]) : [];
}

// Words that may stand at the caret, and no others. Registers are offered only if somebody asks.
function offersAt(asked) {
  const { begun, line } = wordAt(), { operations, directives } = about.words;
  if (line.includes(";") || inC(file().name)) return [];
  const first = /^\s*(?:[A-Za-z_]\w*\s*:)?\s*(?:\.empty\s+)?[.\w]*$/.test(line), kind = first ? null : kindAt(line);
  const found = first ? [operations, directives].flatMap((table) => Object.entries(table).map(([name, [usage, says]]) =>
    [name, `${usage}: ${says}`])) : kind === "register" && !asked ? [] : wordsOf(kind);
  return found.filter(([name]) => name.startsWith(begun) && name !== begun).slice(0, 40);
}

const offered = { list: [], at: -1 };

function hideOffers() {
  byId("offers").hidden = true;
  offered.list = [];
  byId("text").removeAttribute("aria-activedescendant");
}

// Shows what may stand here, if it is asked for or two letters of it are there.
function showOffers(asked) {
  const list = wordAt().begun.length > 1 || asked ? offersAt(asked) : [];
  Object.assign(offered, { list, at: asked && list.length ? 0 : -1 });
  if (!list.length) return hideOffers();
  const { begun, line } = wordAt(), box = byId("offers"), field = byId("text").getBoundingClientRect();
  const style = getComputedStyle(byId("text")), high = parseFloat(style.lineHeight), wide = letterWidth();
  box.replaceChildren(...list.map(([name, says], at) => el("li", { role: "option", id: `offer-${at}`, "data-at": at,
    "aria-selected": `${at === offered.at}` }, el("b", {}, name), el("span", {}, says))));
  box.hidden = false;
  const left = field.left + (columnIn(line, line.length - begun.length) + .6) * wide, top = field.top
    + caretLine() * high;
  box.style.left = `${Math.max(4, Math.min(left, innerWidth - box.offsetWidth - 4))}px`;
  box.style.top = `${top + box.offsetHeight < innerHeight ? top : top - high - box.offsetHeight}px`;
}

function letterWidth() {
  const probe = el("span", {}, "0".repeat(40));
  byId("ink").append(el("div", {}, probe));
  const wide = probe.getBoundingClientRect().width / 40;
  byId("ink").lastChild.remove();
  return wide || 8;
}

function moveOffer(by) {
  offered.at = (offered.at + by + offered.list.length) % offered.list.length;
  byId("offers").querySelectorAll("li").forEach((item, at) => {
    item.setAttribute("aria-selected", `${at === offered.at}`);
    if (at === offered.at) item.scrollIntoView({ block: "nearest" });
  });
  byId("text").setAttribute("aria-activedescendant", `offer-${offered.at}`);
}

function acceptOffer(at) {
  const { begun } = wordAt(), field = byId("text"), [name] = offered.list[at] || [];
  hideOffers();
  if (!name) return;
  field.focus();
  field.setRangeText(name.slice(begun.length), field.selectionStart, field.selectionEnd, "end");
  edited();
}

// The keys of the editor: those of the list while it is open, and an Enter that keeps how far lines are set in.
function onEditorKey(event) {
  const open = offered.list.length > 0, field = byId("text");
  if (event.ctrlKey && event.key === " ") {
    event.preventDefault();
    return showOffers(true);
  }
  if (event.ctrlKey || event.metaKey || event.altKey) return;
  if (open && (event.key === "ArrowDown" || event.key === "ArrowUp")) {
    event.preventDefault();
    return moveOffer(event.key === "ArrowDown" ? 1 : offered.at < 0 ? offered.list.length : -1);
  }
  if (open && (event.key === "Tab" || (event.key === "Enter" && offered.at >= 0))) {
    event.preventDefault();
    return acceptOffer(Math.max(0, offered.at));
  }
  if (open && event.key === "Escape") {
    event.stopPropagation();
    return hideOffers();
  }
  if (event.key === "Enter" && !event.shiftKey) {
    const before = field.value.slice(0, field.selectionStart),
      set = /^[ \t]*/.exec(before.slice(before.lastIndexOf("\n") + 1))[0];
    event.preventDefault();
    insert(`\n${set}`);
  }
}

// Text for the caret, so that the browser's own undo knows of it.
function insert(text) {
  const field = byId("text");
  field.focus();
  if (!document.execCommand("insertText", false, text)) {
    field.setRangeText(text, field.selectionStart, field.selectionEnd, "end");
    edited();
  }
}

// What follows each change of the text.
function edited() {
  const before = file().text, after = byId("text").value;
  if (before === after) return;
  moveBreaks(before, after);
  file().text = after;
  state.version++;
  if (state.turns && isAnother(before, after)) {
    state.turns = state.offered = "";
    showTurns();
    tell("another program: it runs in round robin again");
  }
  forgetLink();
  state.faults = state.faults.filter((fault) => fault.file !== file().name
    || linesOf(after)[fault.line - 1] === linesOf(before)[fault.line - 1]);
  state.now = state.done = state.stands = null;
  keep();
  showInk();
  showMistakes();
  showNotices();
  showOffers(false);
  explain();
  keepCaret();
  checkSoon();
}

// Whether next to nothing of a text is left in another: then it is another program.
function isAnother(before, after) {
  const lines = (text) => new Set(linesOf(text).map((line) => line.trim()).filter(Boolean)), had = lines(before);
  const left = [...lines(after)].filter((line) => had.has(line)).length;
  return had.size > 2 && left * 3 < had.size;
}

// The line where somebody types stays in sight, also if what is below the editor grows; and the beginning of the lines
// does, as long as the caret is not far from it.
function keepCaret() {
  const box = byId("editor"), field = byId("text"), item = byId("ink").children[caretLine() - 1];
  if (document.activeElement !== field || !item) return;
  const top = item.offsetTop, high = item.offsetHeight, most = box.clientHeight - 2 * high;
  if (top > box.scrollTop + most) box.scrollTop = top - Math.max(0, most);
  else if (top < box.scrollTop) box.scrollTop = top;
  const { line } = wordAt(), right = byId("gutter").offsetWidth + (columnIn(line, line.length) + 3) * letterWidth();
  if (right < box.clientWidth) box.scrollLeft = 0;
}

// Goes to a place of a source.
function goToLine(name, line, letter = 0) {
  const at = state.files.findIndex((each) => each.name === name);
  if (at < 0) return;
  if (at !== state.at) chooseFile(at);
  showSide("left");
  const field = byId("text"), lines = linesOf(field.value), start = lines.slice(0, line - 1).reduce((sum, each) => sum
    + each.length + 1, 0);
  field.focus();
  field.setSelectionRange(start + letter, start + letter);
  reveal(line);
  caretMoved();
}

// Scrolls the editor so that a line is in it.
function reveal(line) {
  const box = byId("editor"), item = byId("ink").children[line - 1];
  if (!item) return;
  const top = item.offsetTop, high = item.offsetHeight;
  if (top < box.scrollTop + high || top > box.scrollTop
    + box.clientHeight - 3 * high) box.scrollTop = top - box.clientHeight / 2.5;
}

function caretMoved() {
  explain();
  showMarks();
}
