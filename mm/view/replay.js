// The machine after any turn. Place 0 is before the first turn of the page, place n after its n-th. Key frames make a
// jump quick.

const FRAME = 256;

// The turns of the page, each with what it was.
const TURNS = RUN.steps.map(([cycle, slot, number, outcome, fault, fetch, access, address, entered, changes]) => ({
  cycle, slot, number, outcome: OUTCOMES[outcome], fault, fetch, access: ACCESSES[access], address, entered, changes,
}));

// The bytes that each group had printed before the page, and prints on it.
const BYTES = new Map(RUN.start.outputs.map(([group, text]) => [group,
  (text.match(/../g) || []).map((byte) => parseInt(byte, 16))]));

class Machine {
  constructor(from) {
    this.slots = new Map(from.slots.map((slot) => [slot.slot,
      { ...slot, registers: [...slot.registers], pending: [...slot.pending], queue: [...slot.queue] }]));
    this.cells = new Map(from.cells);
    this.pages = new Set(from.pages);
    this.lengths = new Map(from.lengths);
  }

  static begin() {
    const cells = new Map(), { slots, pages, outputs } = RUN.start;
    for (const [page, kept] of pages) {
      for (const [at, word, full] of kept) cells.set(page * PAGE_BYTES + 8 * at, [word, full]);
    }
    const lengths = outputs.map(([group, text]) => [group, text.length / 2]);
    return new Machine({ slots, cells, pages: pages.map(([page]) => page), lengths });
  }

  copy() {
    return new Machine({ slots: [...this.slots.values()], cells: this.cells, pages: this.pages,
      lengths: this.lengths });
  }

  // The word and the bit at an address; null where no page is.
  cell(address) {
    if (!this.pages.has(Math.floor(address / PAGE_BYTES))) return null;
    return this.cells.get(address) || [ZERO, 1];
  }

  carryOut(turn) {
    if (turn.outcome !== "delivered") this.slots.get(turn.slot).turns = turn.number;
    for (const change of turn.changes) this.change(change);
  }

  change([kind, a, b, c, ...more]) {
    const slot = this.slots.get(a);
    if (kind === IP) [slot.ip, slot.past] = [b, c];
    else if (kind === STATE) [slot.state, slot.fault] = [b, c];
    else if (kind === REGISTER) {
      if (slot.registers[b] === null && c !== null) slot.pending = slot.pending.filter(([register]) => register !== b);
      slot.registers[b] = c;
    } else if (kind === LOAD) slot.pending.push([b, c]);
    else if (kind === EVENT) slot.queue.push([b, c, ...more]);
    else if (kind === TAKEN) slot.queue.shift();
    else if (kind === OUT) this.lengths.set(a, this.lengths.get(a) + 1);
    else if (kind === PAGE) this.setPage(a, b);
    else this.cells.set(a, [b, c]);
  }

  setPage(page, isNew) {
    for (let at = 0; at < PAGE_BYTES; at += 8) this.cells.delete(page * PAGE_BYTES + at);
    if (isNew) this.pages.add(page);
    else this.pages.delete(page);
  }
}

// Goes through the run once: frames, the bytes printed, where each turn ran, and the machine at the end.
const FRAMES = [];
const RAN = new Array(TURNS.length);
(function goThrough() {
  const machine = Machine.begin();
  TURNS.forEach((turn, at) => {
    if (at % FRAME === 0) FRAMES.push(machine.copy());
    RAN[at] = machine.slots.get(turn.slot).ip;
    for (const [kind, group, byte] of turn.changes) if (kind === OUT) BYTES.get(group).push(byte);
    machine.carryOut(turn);
  });
  if (!FRAMES.length) FRAMES.push(machine.copy());
})();

// The machine at a place.
function machineAt(place) {
  const frame = Math.min(FRAMES.length - 1, Math.floor(place / FRAME));
  const machine = FRAMES[frame].copy();
  for (let at = frame * FRAME; at < place; at++) machine.carryOut(TURNS[at]);
  return machine;
}

const SLOTS = RUN.start.slots.map(({ slot }) => slot);
const GROUP = new Map(RUN.start.slots.map(({ slot, group }) => [slot, group]));

// The segments in which slots ran, in the order in which they first come, each with its tint and what it is: code, a
// gate or the kernel.
const CODE = new Map();
// The order in which tints are given out: two blues come as far from each other as they can.
const TINTS = [0, 1, 2, 3, 6, 5, 7, 4];
const codeKey = (pointer) => `${pointer.base}/${pointer.log}`;
(function findCode() {
  const entered = new Set();
  const see = (word) => {
    const pointer = pointerOf(word);
    if (pointer && /^e/.test(pointer.permission.short)) entered.add(codeKey(pointer));
  };
  RUN.start.slots.forEach((slot) => slot.registers.forEach(see));
  RUN.start.pages.forEach(([, kept]) => kept.forEach(([, word]) => see(word)));
  TURNS.forEach((turn) => see(turn.entered));
  const first = RUN.start.slots.map((slot) => slot.ip);
  for (const word of new Set([...first, ...RAN])) {
    const pointer = pointerOf(word), key = codeKey(pointer), privileged = pointer.permission.short === "xp";
    if (!CODE.has(key)) {
      const region = regionAt(Number(pointer.base));
      const whole = region && region.base === Number(pointer.base) && region.log === pointer.log;
      CODE.set(key, {
        tint: TINTS[CODE.size % 8],
        late: CODE.size > 3,
        name: whole ? region.name : `${showAddress(pointer.base)} 2^${pointer.log}`,
        base: Number(pointer.base),
        end: Number(pointer.end),
        kind: entered.has(key) ? "gate" : "code",
      });
    }
    if (privileged) CODE.get(key).kind = "kernel";
  }
})();
const codes = new Map();
function codeOf(word) {
  if (!codes.has(word)) codes.set(word, CODE.get(codeKey(pointerOf(word))));
  return codes.get(word);
}
const codeAt = (address) => [...CODE.values()].find((code) => code.base <= address && address < code.end);
