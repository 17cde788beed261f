/* ---- The panel of the message that is selected. */

/** An element with children, each a text, a name, or another element. Texts never become HTML. */
function element(tag, children, className = "") {
  const made = document.createElement(tag);
  made.className = className;
  for (const child of [children].flat()) {
    const isName = !(child instanceof Node) && child.name !== undefined;
    made.append(isName ? element("code", child.name) : child instanceof Node ? child : document.createTextNode(String(child)));
  }
  return made;
}

/** A line of a text with its number. */
function lineOf(what, lines, number) {
  return [element("p", `${what}, line ${number}:`, "soft"), element("pre", lines[number - 1])];
}

function causeParts(cause) {
  const [first, ...rest] = SAY[cause.word](cause);
  const begun = typeof first === "string" ? first[0].toUpperCase() + first.slice(1) : first;
  return [...lineOf("The cause", state.causes.lines, cause.line), element("p", [begun, ...rest, "."])];
}

/** The cause of the first message of the finger's bar that has this message: how the finger came to the window. */
function causeOfBar(messages, row, at) {
  const k = firstWhere(row.marks.length, (place) => row.marks[place] >= at);
  const bar = row.bars.find(({ first, last }) => first <= k && k <= last);
  return row.kind === "finger" ? messages[row.marks[bar.first]].cause : null;
}

/** What is shown of a message: its line, its words, its cause, and how its finger came to the window. */
function messageParts({ lane, row, at }) {
  const { name, messages } = lane.section;
  const message = messages[at];
  const begun = causeOfBar(messages, row, at);
  return [
    element("p", [{ name }, `, message ${message.seq} of ${messages.length}, at ${exactMillis(message.moment)}`]),
    ...lineOf("The text", state.stream.lines, message.line),
    element("p", sayMessage(message)),
    ...faultParts(lane, at),
    ...pairParts(lane, at),
    ...(message.cause ? causeParts(message.cause) : []),
    ...(begun && begun !== message.cause ? [element("p", `How finger ${row.id} came here:`), ...causeParts(begun)] : []),
  ];
}

/** What breaks at a message, in words. */
function faultParts(lane, at) {
  return state.faults.filter((fault) => fault.lane === lane && fault.at === at)
    .map(({ word, said }) => element("p", [{ name: said }, FAULT_WORDS[word] ? `: ${FAULT_WORDS[word]}.` : "."], "fault"));
}

/** The point that came where this message was wanted, and how far from it. */
function pairParts(lane, at) {
  const pair = lane.partner && lane.partner.pairs.find(([wanted]) => wanted.at === at);
  if (!pair) { return []; }
  const [{ message }, { message: came }] = pair;
  const apart = came.moment - message.moment;
  const far = (message.pointers || []).map(({ x, y }, k) => (came.pointers && came.pointers[k] ? Math.max(Math.abs(x - came.pointers[k].x), Math.abs(y - came.pointers[k].y)) : 0));
  return [...lineOf("As it came", state.other.lines, came.line),
    element("p", `${apart < 0n ? -apart : apart} µs ${apart < 0n ? "earlier" : "later"}` + (far.length > 0 ? `, at most ${Math.max(...far)} pixels away.` : "."))];
}

/** What is shown of a timeout, a removal, or a window that is responsive again. */
function eventParts({ lane, event: { what, moment, naming, cause } }) {
  const { name } = lane.section;
  return [
    element("p", [{ name }, `, ${what}, at ${exactMillis(moment)}`]),
    ...(naming ? lineOf("The text", state.stream.lines, naming.line) : []),
    ...(naming ? [element("p", [{ name }, ` did not finish message ${naming.seq} in time.`])] : []),
    ...(cause ? causeParts(cause) : []),
  ];
}

function showSelected() {
  const { selected } = state;
  const parts = !selected ? [element("p", "Click a bar, a mark or a finger, or press an arrow key.", "soft")]
    : selected.event ? eventParts(selected) : messageParts(selected);
  byId("why-panel").classList.toggle("idle", !selected);
  byId("why").replaceChildren(...parts);
}

/** Selects a message or a mark; the screen goes to its moment, and the lanes to its place. */
function select(selected) {
  state.selected = selected;
  if (selected) {
    state.now = selected.event ? selected.event.t : selected.lane.section.messages[selected.at].t;
    bringIntoView(selected);
  }
  showSelected();
  redraw();
}

function bringIntoView({ lane, row }) {
  const { view: { from, to }, now } = state;
  if (now < from || now > to) { setView(now - (to - from) / 2, now + (to - from) / 2); }
  const box = byId("lanes-box");
  const top = lane.top + (row ? row.top : 0);
  if (top < box.scrollTop || top + 24 > box.scrollTop + box.clientHeight - AXIS) { box.scrollTop = Math.max(0, lane.top - 8); }
}
