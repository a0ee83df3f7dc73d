// The slots: states and registers, with pointers spelled out.

const opened = new Set();

// A segment as a bar, with the address in it.
function rail(pointer) {
  const length = Number(pointer.end - pointer.base), at = Number(pointer.address - pointer.base) / length;
  const code = codeAt(Number(pointer.base));
  const bar = el("span", { class: `rail${code ? " tinted" : ""}`, "aria-hidden": "true" },
    el("i", { style: `left:${(at * 90).toFixed(1)}%` }));
  if (code) bar.style.setProperty("--tint", `var(--tint-${code.tint})`);
  return bar;
}

// A word: a button that takes it apart.
function wordButton(word, key, name) {
  const pointer = pointerOf(word), text = wordText(word);
  const button = el("button", { type: "button", class: "word", "aria-expanded": `${opened.has(key)}`,
    "data-key": key, "data-word": word, title: "take it apart" });
  if (!pointer) button.append(text);
  else {
    const rest = text.slice(pointer.permission.short.length);
    button.append(el("span", { class: "perm" }, pointer.permission.short), rest.slice(0, rest.indexOf(" ", 1)), " ",
      rail(pointer), rest.slice(rest.indexOf(" ", 1) + 1));
  }
  button.setAttribute("aria-label", `${name}: ${text}`);
  return button;
}

function bitsText(bits, count) {
  return bits.toString(2).padStart(count, "0");
}

// The address in the words of its bits: which segment, and underlined the place in it.
function addressBits(pointer) {
  const text = bitsText(pointer.address, 54), cut = 54 - Math.min(54, pointer.log);
  return el("span", { class: "bits" }, text.slice(0, cut), el("span", { class: "inside" }, text.slice(cut)));
}

function part(title, bits, said) {
  return el("div", { class: "part" }, el("b", {}, title), bits, el("div", {}, said));
}

function pointerParts(word) {
  const pointer = pointerOf(word), bits = bitsOf(word), region = regionAt(Number(pointer.base));
  const at = pointer.address - pointer.base, length = pointer.end - pointer.base;
  const whole = region && BigInt(region.base) === pointer.base && region.log === pointer.log;
  const bar = el("div", { class: "long", "aria-hidden": "true" },
    el("i", { style: `left:${(Number(at) / Number(length) * 98).toFixed(2)}%` }, ""),
    el("span", { style: Number(at) * 2 > Number(length) ? "right:0"
      : `left:${(Number(at) / Number(length) * 98).toFixed(2)}%` }, `${hex(pointer.address)} = base + ${at}`));
  return el("div", { class: "fields" },
    el("div", { class: "parts" },
      part("permission, 4 bits", el("span", { class: "bits" }, bitsText(bits >> 60n, 4)),
        `${pointer.permission.code}: ${pointer.permission.full} (${pointer.permission.short})`),
      part("length, 6 bits", el("span", { class: "bits" }, bitsText(BigInt(pointer.log), 6)),
        `${pointer.log}: 2^${pointer.log} = ${bytesText(pointer.log)}`),
      part("address, 54 bits", addressBits(pointer),
        `${showAddress(pointer.address)}: the underlined ${pointer.log} bits are the place in its segment`)),
    bar,
    el("div", { class: "ends" }, el("span", {}, `${hex(pointer.base)}${whole ? ` ${region.name}` : ""}`),
      el("span", {}, hex(pointer.end - 1n))),
    el("p", {}, `Its 64 bits: `, el("code", {}, `0x${word.slice(1)}`), `. Its tag says that it is a pointer.`));
}

function integerParts(word) {
  const bits = bitsOf(word), signed = BigInt.asIntN(64, bits), instruction = instructionOf(word);
  return el("div", { class: "fields" },
    el("p", {}, "An integer: it has no tag, and nobody can use it as a pointer."),
    el("p", {}, el("code", {}, `0x${word.slice(1)}`), ` = ${signed}`, signed < 0n ? `, or ${bits} without a sign` : ""),
    bits && instruction ? el("p", {}, "As an instruction it would be ",
      el("code", {}, instructionText(instruction, 0))) : null);
}

const partsOf = (word) => (tagged(word) ? pointerParts(word) : integerParts(word));

// Opens and closes what a button takes apart, below its row.
function toggle(button) {
  const { key, word } = button.dataset, row = button.closest("tr");
  const open = !opened.has(key);
  if (open) opened.add(key);
  else opened.delete(key);
  button.setAttribute("aria-expanded", `${open}`);
  if (open) row.after(partsRow(word, row.cells.length));
  else row.nextElementSibling.remove();
}

const partsRow = (word, across) => el("tr", { class: "parts" }, el("td", { colspan: across }, partsOf(word)));

// The registers of each slot that are not 0 at some time of the run: they keep their rows while they are.
const EVER = new Map(RUN.start.slots.map(({ slot, registers }) => [slot,
  new Set(registers.flatMap((word, at) => (word === ZERO ? [] : [at])))]));
for (const { changes } of TURNS) {
  for (const [kind, slot, register, word] of changes) if (kind === REGISTER
    && word !== ZERO) EVER.get(slot).add(register);
}

function registerRows(slot, before, zeros) {
  const rows = [];
  const add = (name, word, changed, more, mark = "changed") => {
    const key = `${slot.slot}.${name}`, apart = word !== null && opened.has(key);
    rows.push(el("tr", { class: changed ? mark : null, "data-register": name },
      el("th", { scope: "row" }, name, changed ? el("span", { class: "unseen" }, " changed") : null),
      el("td", {}, word === null ? wordText(word) : wordButton(word, key, name), more || null)));
    if (apart) rows.push(partsRow(word, 2));
  };
  const jumped = before && bitsOf(slot.ip) !== bitsOf(before.ip) + 8n;
  add("ip", slot.ip, before && before.ip !== slot.ip, slot.past ? el("span", { class: "soft" }, " past its end")
    : null, jumped ? "changed" : "moved");
  slot.registers.forEach((word, at) => {
    const changed = before && before.registers[at] !== word;
    if (zeros || changed || EVER.get(slot.slot).has(at)) add(`r${at}`, word, changed);
  });
  return rows;
}

function showSlots(place, before, now) {
  const zeros = byId("zeros").checked, turn = place ? TURNS[place - 1] : null;
  byId("cards").replaceChildren(...[...now.slots.values()].map((slot) => {
    const acts = turn && turn.slot === slot.slot, old = before && before.slots.get(slot.slot);
    const state = `${stateText(slot)}, ${several(slot.turns, "turn")}`;
    return el("article", { class: `card${acts ? " acts" : ""}`, "data-slot": slot.slot,
      "aria-label": `slot ${slot.slot}` },
      el("h3", {}, `slot ${slot.slot}`, el("span", { class: "state" },
        `group ${slot.group}${slot.handler === null ? "" : `, handler ${slot.handler}`}`),
        el("span", { class: `state${old && stateText(old) !== stateText(slot) ? " changedbox" : ""}`,
          "data-state": `${slot.state}${slot.fault ? ` ${slot.fault}` : ""}`, "data-turns": slot.turns }, state)),
      el("table", { class: "words" }, el("caption", { class: "unseen" }, `registers of slot ${slot.slot}`),
        el("tbody", {}, registerRows(slot, old, zeros))),
      slot.pending.length ? el("p", { class: "pending" }, "on their way: ",
        slot.pending.map(([register, word]) => `r${register} = ${wordText(word)}`).join(", ")) : null);
  }));
  byId("lane-names").querySelectorAll("li").forEach((item) => {
    const slot = now.slots.get(Number(item.dataset.slot));
    item.classList.toggle("acts", Boolean(turn && turn.slot === slot.slot));
    const state = slot.state === "faulted" ? `fault ${slot.fault}` : slot.state;
    item.querySelector(".now").textContent = `group ${slot.group}, ${state}`;
  });
}
