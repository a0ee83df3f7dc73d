// The timeline: a lane for each slot, a box for each turn, tinted by the segment in which the slot ran.

const root = document.documentElement;
const byId = (id) => document.getElementById(id);

// An element with attributes and children; a child that is null is left out.
function el(tag, attributes, ...children) {
  const made = document.createElement(tag);
  for (const [name, value] of Object.entries(attributes || {})) {
    if (value !== null && value !== undefined && value !== false) made.setAttribute(name, value === true ? "" : value);
  }
  made.append(...children.flat().filter((child) => child !== null && child !== undefined && child !== false));
  return made;
}

const colours = {};
function readColours() {
  const style = getComputedStyle(root);
  for (const name of ["ink", "soft", "rule", "pane", "field", "accent", "accent-soft", "bad", "on-bad", "on-tint"]) {
    colours[name] = style.getPropertyValue(`--${name}`).trim();
  }
  colours.tints = [...Array(8).keys()].map((at) => style.getPropertyValue(`--tint-${at}`).trim());
}

// A canvas made as sharp as the screen is.
function prepare(canvas, width, height) {
  const ratio = window.devicePixelRatio || 1;
  canvas.width = Math.max(1, Math.round(width * ratio));
  canvas.height = Math.max(1, Math.round(height * ratio));
  canvas.style.height = `${height}px`;
  const pen = canvas.getContext("2d");
  pen.setTransform(ratio, 0, 0, ratio, 0, 0);
  pen.clearRect(0, 0, width, height);
  return pen;
}

function boxPath(pen, x, y, width, height) {
  const round = Math.min(4, width / 4);
  pen.beginPath();
  pen.moveTo(x + round, y);
  pen.arcTo(x + width, y, x + width, y + height, round);
  pen.arcTo(x + width, y + height, x, y + height, round);
  pen.arcTo(x, y + height, x, y, round);
  pen.arcTo(x, y, x + width, y, round);
  pen.closePath();
}

// Gates have a beam below their top, privileged code has stripes, and segments from the fifth on have a foot, so that
// none is told by its tint alone.
function drawKind(pen, { kind, late }, x, y, width, height) {
  pen.fillStyle = pen.strokeStyle = colours["on-tint"];
  if (late) pen.fillRect(x + width * 0.25, y + height - Math.min(5, height / 5), width * 0.5, Math.min(3, height / 8));
  if (kind === "gate") pen.fillRect(x, y + Math.min(4, height / 6), width, Math.min(3, height / 8));
  if (kind !== "kernel" || width < 5) return;
  pen.save();
  boxPath(pen, x, y, width, height);
  pen.clip();
  pen.globalAlpha = 0.4;
  pen.lineWidth = 1.5;
  pen.beginPath();
  for (let at = -height; at < width; at += 6) {
    pen.moveTo(x + at, y + height);
    pen.lineTo(x + at + height, y);
  }
  pen.stroke();
  pen.restore();
}

function drawFault(pen, x, y, width, height) {
  pen.fillStyle = colours.bad;
  boxPath(pen, x, y, width, height);
  pen.fill();
  const inset = Math.min(width, height) / 2 - 2;
  if (inset < 2) return;
  pen.strokeStyle = colours["on-bad"];
  pen.lineWidth = 2;
  pen.beginPath();
  for (const way of [-1, 1]) {
    pen.moveTo(x + width / 2 - inset * 0.7, y + height / 2 - inset * 0.7 * way);
    pen.lineTo(x + width / 2 + inset * 0.7, y + height / 2 + inset * 0.7 * way);
  }
  pen.stroke();
}

function drawBlocked(pen, tint, x, y, width, height) {
  pen.fillStyle = tint;
  pen.fillRect(x, y + height - 4, width, 4);
  pen.strokeStyle = colours.ink;
  pen.lineWidth = width < 5 ? 1 : 1.5;
  pen.setLineDash(width < 5 ? [] : [3, 2.5]);
  boxPath(pen, x + 0.75, y + 0.75, width - 1.5, height - 1.5);
  pen.stroke();
  pen.setLineDash([]);
}

// The body of a box: what became of the turn.
function drawOutcome(pen, outcome, code, x, y, width, height) {
  const tint = colours.tints[code.tint];
  if (outcome === "faulted") return drawFault(pen, x, y, width, height);
  if (outcome === "blocked") return drawBlocked(pen, tint, x, y, width, height);
  pen.fillStyle = tint;
  if (outcome === "delivered") {
    pen.beginPath();
    pen.moveTo(x + width / 2, y);
    pen.lineTo(x + width, y + height / 2);
    pen.lineTo(x + width / 2, y + height);
    pen.lineTo(x, y + height / 2);
    pen.closePath();
    pen.fill();
    pen.strokeStyle = colours.ink;
    pen.lineWidth = 1;
    return pen.stroke();
  }
  boxPath(pen, x, y, width, height);
  pen.fill();
  drawKind(pen, code, x, y, width, height);
}

const MARKS = { load: "l", loadset: "b", store: "s" };
function markOf(turn) {
  const out = turn.changes.find(([kind]) => kind === OUT);
  if (out) return out[2] >= 33 && out[2] < 127 ? `“${String.fromCharCode(out[2])}”` : "“ ”";
  return turn.access && turn.outcome !== "faulted" ? MARKS[turn.access] : "";
}

const timeline = {
  box: 0, zoomed: false, first: 0, lane: 44, axis: 20, place: 0, width: 0, overview: null,

  get height() {
    return this.lane * SLOTS.length + this.axis;
  },

  measure() {
    const size = parseFloat(getComputedStyle(root).fontSize), lanes = SLOTS.length;
    this.letters = size;
    this.lane = Math.round(size * (lanes <= 4 ? 2.7 : lanes <= 8 ? 2.1 : lanes <= 16 ? 1.6 : 1.2));
    this.axis = Math.round(size * 1.5);
    this.width = byId("timeline").clientWidth;
    if (!this.zoomed) this.box = Math.min(2.1 * size, Math.max(1.35 * size, this.width / Math.max(1, TURNS.length)));
    byId("lane-names").querySelectorAll("li").forEach((item) => { item.style.height = `${this.lane}px`; });
  },

  get shown() {
    return this.width / this.box;
  },

  // Moves the window so that the cursor is in it, with some turns around it.
  follow() {
    const around = Math.min(4, this.shown / 4), at = this.place - 1;
    if (at < this.first + around) this.first = at - around;
    if (at + 1 > this.first + this.shown - around) this.first = at + 1 - this.shown + around;
    this.first = Math.max(0, Math.min(this.first, TURNS.length - this.shown));
  },

  zoom(by) {
    const at = this.place - 1, where = (at - this.first) / this.shown;
    this.zoomed = true;
    this.box = Math.max(2, Math.min(4 * this.letters, this.box * by));
    this.first = at - where * this.shown;
    this.follow();
    this.draw();
  },

  draw() {
    const pen = prepare(byId("boxes"), this.width, this.height);
    pen.strokeStyle = colours.rule;
    pen.lineWidth = 1;
    SLOTS.forEach((slot, at) => {
      pen.beginPath();
      pen.moveTo(0, (at + 1) * this.lane - 0.5);
      pen.lineTo(this.width, (at + 1) * this.lane - 0.5);
      pen.stroke();
    });
    this.drawCursor(pen);
    const end = Math.min(TURNS.length, Math.ceil(this.first + this.shown));
    for (let at = Math.max(0, Math.floor(this.first)); at < end; at++) this.drawTurn(pen, at);
    this.drawAxis(pen, end);
    this.drawOverview();
  },

  drawCursor(pen) {
    const x = (this.place - 1 - this.first) * this.box;
    pen.fillStyle = colours["accent-soft"];
    if (this.place) pen.fillRect(x, 0, this.box, this.height);
    pen.fillStyle = colours.accent;
    if (this.place) {
      pen.fillRect(x, this.height - 3, this.box, 3);
      pen.fillRect(x, 0, this.box, 2);
    } else pen.fillRect(-this.first * this.box, 0, 4, this.height);
  },

  drawTurn(pen, at) {
    const turn = TURNS[at], code = codeOf(RAN[at]), gap = this.box > 6 ? 1.5 : this.box > 3 ? 0.5 : 0;
    const x = (at - this.first) * this.box + gap, width = this.box - 2 * gap;
    const top = SLOTS.indexOf(turn.slot) * this.lane, above = Math.round(this.lane * 0.27);
    const y = top + above, height = this.lane - above - 4;
    drawOutcome(pen, turn.outcome, code, x, y, width, height);
    pen.textAlign = "center";
    pen.textBaseline = "middle";
    const mark = markOf(turn), size = Math.min(this.letters * 0.85, width * (mark.length > 1 ? 0.56 : 1.1),
      height * 0.8);
    if (mark && size >= 8) {
      pen.font = `600 ${size}px ${FONT}`;
      pen.fillStyle = turn.outcome === "blocked" ? colours.ink : colours["on-tint"];
      pen.fillText(mark, x + width / 2, y + height / 2 + (code.kind === "gate" ? 3 : 1));
    }
    if (turn.entered) this.drawEntry(pen, x + width / 2, y - 1);
    if (turn.fault && width > 5) {
      const high = Math.min(above * 0.85, this.letters * 0.75);
      pen.font = `700 ${high}px ${FONT}`;
      pen.fillStyle = colours.ink;
      pen.fillText(turn.fault, x + width / 2, top + above - high / 2);
    }
    if (at === this.place - 1) {
      pen.strokeStyle = colours.accent;
      pen.lineWidth = 2.5;
      boxPath(pen, x - 0.5, y - 0.5, width + 1, height + 1);
      pen.stroke();
    }
  },

  drawEntry(pen, x, y) {
    pen.fillStyle = colours.ink;
    pen.beginPath();
    pen.moveTo(x - 5, y - 8);
    pen.lineTo(x + 5, y - 8);
    pen.lineTo(x, y);
    pen.closePath();
    pen.fill();
  },

  drawAxis(pen, end) {
    pen.font = `${this.letters * 0.72}px ${FONT}`;
    pen.fillStyle = colours.soft;
    pen.textAlign = "center";
    pen.textBaseline = "middle";
    const room = (String(RUN.last).length + 2) * this.letters * 0.5;
    let each = 1;
    for (const step of [1, 2, 5, 10, 20, 50, 100, 200, 500, 1000, 2000, 5000]) {
      each = step;
      if (step * this.box >= room) break;
    }
    for (let at = Math.max(0, Math.floor(this.first)); at < end; at++) {
      if ((at + 1) % each && !(at === 0 && each > 1 && each * this.box > 2 * room)) continue;
      pen.fillText(TURNS[at].cycle, (at - this.first + 0.5) * this.box, this.height - this.axis / 2);
    }
  },

  // The whole run in a strip, drawn once; over it the window and the cursor.
  drawOverview() {
    const strip = byId("overview"), need = TURNS.length * this.box > this.width + 1;
    strip.hidden = !need;
    if (!need) return;
    const width = Math.round(strip.clientWidth), height = Math.max(16, Math.min(40, SLOTS.length * 7 + 2));
    if (!width) return;
    if (!this.overview || this.overview.width !== width) this.overview = this.paintOverview(width, height);
    const pen = prepare(byId("whole"), width, height), each = width / TURNS.length;
    pen.drawImage(this.overview, 0, 0, width, height);
    const left = this.first * each, wide = Math.max(3, this.shown * each);
    pen.fillStyle = colours.pane;
    pen.globalAlpha = 0.6;
    pen.fillRect(0, 0, left, height);
    pen.fillRect(left + wide, 0, width - left - wide, height);
    pen.globalAlpha = 1;
    pen.strokeStyle = colours.accent;
    pen.lineWidth = 1.5;
    pen.strokeRect(left + 0.75, 0.75, wide - 1.5, height - 1.5);
    pen.fillStyle = colours.accent;
    pen.fillRect(Math.max(0, (this.place - 0.5) * each - 1), 0, 2.5, height);
  },

  paintOverview(width, height) {
    const canvas = document.createElement("canvas");
    canvas.width = width;
    canvas.height = height;
    const pen = canvas.getContext("2d"), lane = height / SLOTS.length, each = width / TURNS.length,
      wide = Math.max(1, each);
    TURNS.forEach((turn, at) => {
      const y = SLOTS.indexOf(turn.slot) * lane;
      pen.fillStyle = turn.outcome === "faulted" ? colours.bad : colours.tints[codeOf(RAN[at]).tint];
      if (turn.outcome === "blocked") pen.fillRect(at * each, y + lane * 0.7, wide, lane * 0.2);
      else pen.fillRect(at * each, y + 1, wide, Math.max(1, lane - 2));
    });
    return canvas;
  },

  // The place of the turn at a point of the timeline.
  placeAt(x) {
    return Math.max(1, Math.min(TURNS.length, Math.floor(this.first + x / this.box) + 1));
  },
};
const FONT = "system-ui, 'Segoe UI', 'DejaVu Sans', Arial, sans-serif";

function buildLanes() {
  const handled = RUN.start.slots.filter(({ handler }) => handler !== null);
  byId("lane-names").replaceChildren(...RUN.start.slots.map(({ slot, group }) => {
    const serves = handled.filter(({ handler }) => handler === slot).map((it) => it.slot);
    const about = serves.length ? `, handles ${serves.join(", ")}` : "";
    return el("li", { "data-slot": slot, title: `slot ${slot}, group ${group}${about}` },
      el("span", { class: "who" }, `slot ${slot}`), el("span", { class: "now" }, `group ${group}`));
  }));
}

// What a segment of code is called: by its name, and what it is where it is no plain code.
const codeText = (code) => ({ code: code.name, gate: `gate ${code.name}`,
  kernel: `privileged ${code.name}` })[code.kind].replace(/^gate (?=gate)/, "");

// The legend says only what this run has.
function buildLegend() {
  const items = [...CODE.values()].map((code) => [code, "did", codeText(code)]);
  const some = [...CODE.values()][0], has = (test) => TURNS.some(test);
  if (has((turn) => turn.outcome === "blocked")) items.push([some, "blocked", "waits, will try again"]);
  if (has((turn) => turn.outcome === "faulted")) items.push([some, "faulted", "a fault, by its number"]);
  if (has((turn) => turn.outcome === "delivered")) items.push([some, "delivered", "a load arrives"]);
  const list = byId("legend");
  list.replaceChildren(...items.map(([code, outcome, text]) => {
    const canvas = el("canvas", { "aria-hidden": "true" }), size = Math.round(1.25 * timeline.letters);
    drawOutcome(prepare(canvas, size, size), outcome, code, 1, 1, size - 2, size - 2);
    return el("li", {}, canvas, text);
  }));
  const said = [];
  if (has((turn) => turn.entered)) said.push(["▼", "enters a gate"]);
  if (has((turn) => turn.access === "load")) said.push(["l", "load"]);
  if (has((turn) => turn.access === "loadset")) said.push(["b", "load that sets the bit"]);
  if (has((turn) => turn.access === "store")) said.push(["s", "store"]);
  if (has((turn) => turn.changes.some(([kind]) => kind === OUT))) said.push(["“A”", "prints this letter"]);
  list.append(...said.map(([mark, text]) => el("li", {}, el("b", {}, mark), text)));
}
