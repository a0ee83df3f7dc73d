// Outputs, queues and the audit.

const MOST_BYTES = 600;

function showOutputs(place, now) {
  const turn = place ? TURNS[place - 1] : null;
  byId("bytes").replaceChildren(...[...now.lengths].map(([group, length]) => {
    const isNew = turn && turn.changes.some(([kind, whose]) => kind === OUT && whose === group);
    const from = Math.max(0, length - MOST_BYTES), bytes = BYTES.get(group).slice(from, length);
    const letters = bytes.map(byteText), digits = bytes.map((byte) => byte.toString(16).padStart(2, "0"));
    const last = (list, join) => (isNew ? [list.slice(0, -1).join(join) + (list.length > 1 ? join : ""),
      el("mark", {}, list[list.length - 1])] : [list.join(join)]);
    return el("div", { class: "group-out", "data-group": group, "data-bytes": length },
      el("h3", {}, `group ${group}`, el("span", { class: "unseen" }, ":"), " ",
        el("span", { class: "soft" }, length ? several(length, "byte") : "nothing yet")),
      length ? el("p", { class: "text" }, from ? "… " : "", '"', ...last(letters, ""), '"') : null,
      length ? el("p", { class: "raw" }, ...last(digits, " ")) : null);
  }));
}

const HANDLERS = SLOTS.filter((slot) => RUN.start.slots.some(({ handler }) => handler === slot));

function showQueues(now) {
  byId("queues").hidden = !HANDLERS.length;
  byId("events").replaceChildren(...HANDLERS.map((handler) => {
    const { queue } = now.slots.get(handler);
    return el("div", { "data-queue": handler, "data-length": queue.length },
      el("h3", {}, `slot ${handler}`, el("span", { class: "unseen" }, ":"), " ",
        el("span", { class: "soft" }, queue.length ? several(queue.length, "event") : "no event")),
      queue.length ? el("ol", {}, queue.map(([slot, cause, ip, address, data]) => el("li", {},
        `slot ${slot}, ${causeText(cause)} at ${showAddress(pointerOf(ip).address)}`,
        el("span", { class: "soft" }, ` (operands ${wordText(address)} and ${wordText(data)})`)))) : null);
  }));
}

// What each group may do with each segment, as a table; rows that one writes and another reads are marked.
const MAY = ["", "reads", "writes", "reads and writes"];
function buildAudit() {
  const { audit } = RUN;
  if (!audit) return;
  const pane = byId("audit");
  pane.hidden = false;
  const groups = audit.groups.filter(([, privileged]) => !privileged);
  const at = audit.groups.map(([group]) => group);
  const shared = (may) => may.some((mine, i) => mine & 2 && may.some((its, j) => i !== j && its & 1));
  const cell = (may) => el("td", {}, may ? el("span",
    { class: `may${may & 2 ? " writes" : ""}`, "aria-hidden": "true" }, may & 2 ? "w" : "r") : null, MAY[may] || "–");
  pane.replaceChildren(
    el("h2", { id: "audit-title" }, "Who can reach what"),
    el("p", { class: "soft" },
      "In any run of this image, whatever its code does. A marked row is one that a group writes and another reads."),
    el("div", { class: "scroll", tabindex: "0", role: "region", "aria-label": "Table of reach" },
      el("table", {}, el("caption", { class: "unseen" }, "Segments, and what each group can do with them"),
      el("thead", {}, el("tr", {}, el("th", { scope: "col" }, "segment"),
        at.map((group) => el("th", { scope: "col" }, `group ${group}`)))),
      el("tbody", {}, audit.rows.map(([name, base, log, may]) => el("tr", { class: shared(may) ? "shared" : null },
        el("th", { scope: "row" }, name, el("span", { class: "soft" }, ` ${bytesText(log)} at ${hex(base)}`)),
          may.map(cell)))))),
    el("ul", {}, audit.said.map(([, text]) => el("li", {}, text))),
    groups.length < audit.groups.length ? el("p", { class: "soft" },
      "A privileged group can read and write everything.") : "");
}
