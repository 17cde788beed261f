/* ---- Zoom, pan, play, keys, mouse. */

const LEAST_SPAN = 10;

/** Shows these times, within what there is. */
function setView(from, to) {
  const { pad, first, last } = state.model;
  const span = Math.min(Math.max(to - from, LEAST_SPAN), last - first + 2 * pad);
  const begin = Math.min(Math.max((from + to - span) / 2, first - pad), last + pad - span);
  state.view = { from: begin, to: begin + span };
  redraw();
}

function showWhole() { setView(state.model.first - state.model.pad, state.model.last + state.model.pad); }

/** Makes what is seen `factor` times as long, around a time that stays where it is. */
function zoom(factor, around) {
  const { from, to } = state.view;
  const span = Math.min(Math.max((to - from) * factor, LEAST_SPAN), state.model.last - state.model.first + 2 * state.model.pad);
  const begin = around - ((around - from) / (to - from)) * span;
  setView(begin, begin + span);
}

/** The time of the message or mark of a drawn window that is nearest to a time; that time itself where there is none. */
function nearestTime(t) {
  const times = state.model.shown.flatMap(({ section: { messages }, events }) => [
    ...(messages.length > 0 ? [messages[nearest(0, messages.length - 1, t, (at) => messages[at].t)].t] : []), ...events.map((event) => event.t),
  ]);
  return times.reduce((best, one) => (best === null || Math.abs(one - t) < Math.abs(best - t) ? one : best), null) ?? t;
}

/** Zooms around what is selected, or else around what is nearest to the moment that the screen shows, or to the middle; so something is always seen. What stands
    at an edge comes nearer to the middle. */
function zoomByKey(factor) {
  const { view: { from, to }, now, selected } = state;
  const isSeen = now >= from && now <= to;
  const around = selected ? now : nearestTime(isSeen ? now : (from + to) / 2);
  const span = Math.min(Math.max((to - from) * factor, LEAST_SPAN), state.model.last - state.model.first + 2 * state.model.pad);
  const part = Math.min(Math.max((around - from) / (to - from), 0.12), 0.88);
  setView(around - part * span, around - part * span + span);
}

function pan(part) {
  const by = (state.view.to - state.view.from) * part;
  setView(state.view.from + by, state.view.to + by);
}

/** The row of a lane that has a message, the one that was selected before where it has it. */
function rowWith(lane, at, before) {
  const has = (row) => row.marks[firstWhere(row.marks.length, (k) => row.marks[k] >= at)] === at;
  return before && before.lane === lane && has(before) ? before : lane.rows.find(has);
}

function selectMessage(lane, at) {
  if (lane && at >= 0 && at < lane.section.messages.length) {
    select({ lane, at, event: null, row: rowWith(lane, at, state.selected && state.selected.row) });
  }
}

/** The message of a lane nearest to the moment that the screen shows. */
function messageNow({ section: { messages } }) { return nearest(0, messages.length - 1, state.now, (at) => messages[at].t); }

/** Goes to the message before or after in the lane that is selected, or in the first one. */
function step(by) {
  const { selected } = state;
  const lane = selected ? selected.lane : state.model.shown.find(({ section }) => section.messages.length > 0);
  if (lane) { selectMessage(lane, selected && !selected.event ? selected.at + by : messageNow(lane)); }
}

/** Goes to the nearest lane above or below that has messages. */
function stepLane(by) {
  const lanes = state.model.shown;
  let k = state.selected ? lanes.indexOf(state.selected.lane) + by : 0;
  while (lanes[k] && lanes[k].section.messages.length === 0) { k += by; }
  if (lanes[k]) { selectMessage(lanes[k], messageNow(lanes[k])); }
}

function stepToEnd(isLast) {
  const lane = state.selected ? state.selected.lane : state.model.shown[0];
  selectMessage(lane, isLast && lane ? lane.section.messages.length - 1 : 0);
}

let playedAt = 0;

function setPlaying(playing) {
  state.playing = playing;
  byId("play").textContent = playing ? "Pause" : "Play";
  if (playing) {
    state.now = state.now >= state.model.last ? 0 : state.now;
    playedAt = performance.now();
    requestAnimationFrame(playOn);
  }
}

/** Goes on by the time since the last frame, at the speed that is chosen. */
function playOn(at) {
  if (!state.playing) { return; }
  const { model: { last }, view: { from, to } } = state;
  state.now = Math.min(last, state.now + Math.max(at - playedAt, 0) * 1000 * Number(byId("speed").value));
  playedAt = at;
  if (state.now > to || state.now < from) { setView(state.now, state.now + to - from); }
  redraw();
  if (state.now < last) {
    requestAnimationFrame(playOn);
  } else {
    setPlaying(false);
  }
}

/** The slider and the clock of the moment. */
function showMoment() {
  const { model: { first, last }, now } = state;
  const told = now < 0 ? "before the first event" : millis(now, 100);
  byId("slider").value = last > first ? Math.round(((now - first) / (last - first)) * 10000) : 0;
  byId("slider").setAttribute("aria-valuetext", told);
  byId("clock").textContent = told;
}

function ofSelected(act) { if (state.selected) { act(state.selected.lane); } }

const KEYS = {
  ArrowLeft: (shift) => (shift ? pan(-0.2) : step(-1)),
  ArrowRight: (shift) => (shift ? pan(0.2) : step(1)),
  ArrowUp: () => stepLane(-1),
  ArrowDown: () => stepLane(1),
  Home: () => stepToEnd(false),
  End: () => stepToEnd(true),
  c: (shift) => jump("cancel", shift ? -1 : 1),
  a: (shift) => jump("anr", shift ? -1 : 1),
  r: (shift) => jump("removal", shift ? -1 : 1),
  f: (shift) => jump("focus", shift ? -1 : 1),
  m: (shift) => jump("mark", shift ? -1 : 1),
  n: (shift) => findNext(shift ? -1 : 1),
  d: () => goToFault("compare"),
  j: () => goToFault("judge"),
  "/": () => byId("sought").focus(),
  g: () => zoomToGesture(),
  h: () => ofSelected(hideLane),
  u: () => arrange(state.model.order, []),
  "[": () => ofSelected((lane) => moveLane(lane, -1)),
  "]": () => ofSelected((lane) => moveLane(lane, 1)),
  l: () => copyLink(),
  s: () => saveSvg(),
  p: () => savePng(),
  "+": () => zoomByKey(0.5),
  "=": () => zoomByKey(0.5),
  "-": () => zoomByKey(2),
  "0": () => showWhole(),
  " ": () => setPlaying(!state.playing),
  Escape: () => select(null),
};

function onKey(event) {
  const isText = event.target.closest("input, select, textarea") && event.target.type !== "range";
  const isPressed = event.key === " " && event.target.closest("button, summary");
  const isScrolled = event.key.startsWith("Arrow") && event.target.closest("input, #said, #table");
  const key = /^[A-Z]$/.test(event.key) ? event.key.toLowerCase() : event.key;
  if (isText && event.key === "Escape") { event.target.blur(); }
  if (state.model && !isText && !isPressed && !isScrolled && !event.ctrlKey && !event.metaKey && !event.altKey && Object.hasOwn(KEYS, key)) {
    event.preventDefault();
    KEYS[key](event.shiftKey);
  }
}

/** The wheel over the lanes zooms, sideways or with shift it pans; over the names it scrolls. */
function onWheel(event) {
  const frame = lanesFrame();
  const { deltaX, deltaY, offsetX } = event;
  const lines = event.deltaMode === 1 ? 24 : 1;
  if (offsetX < frame.names) { return; }
  event.preventDefault();
  if (event.shiftKey || Math.abs(deltaX) > Math.abs(deltaY)) {
    pan(((deltaX || deltaY) * lines) / frame.width);
  } else {
    zoom(Math.exp(Math.max(-1, Math.min(1, deltaY * lines * 0.003))), frame.t(offsetX));
  }
}

let drag = null;

function onPointerDown({ button, clientX, clientY, pointerId }) {
  if (button === 0) {
    drag = { x: clientX, y: clientY, view: state.view, scroll: byId("lanes-box").scrollTop, isMoved: false };
    byId("lanes").setPointerCapture(pointerId);
  }
}

function onPointerMove(event) {
  if (!drag) {
    showHint(event, hitLanes(event.offsetX, event.offsetY));
    return;
  }
  const dx = event.clientX - drag.x;
  const dy = event.clientY - drag.y;
  drag.isMoved = drag.isMoved || Math.hypot(dx, dy) > 4;
  if (drag.isMoved) {
    const { width, names } = lanesFrame();
    const by = (dx * (drag.view.to - drag.view.from)) / (width - names);
    setView(drag.view.from - by, drag.view.to - by);
    byId("lanes-box").scrollTop = drag.scroll - dy;
    byId("hint").hidden = true;
  }
}

function onPointerUp({ offsetX, offsetY }) {
  const found = drag && !drag.isMoved ? hitLanes(offsetX, offsetY) : null;
  drag = null;
  if (found) { select(found); }
}

/** The line under the mouse, beside it. */
function showHint({ clientX, clientY }, found) {
  const hint = byId("hint");
  hint.hidden = !found;
  if (found) {
    const { line, cause } = found.event || found.lane.section.messages[found.at];
    hint.textContent = line ? state.stream.lines[line - 1] : plain(SAY[cause.word](cause));
    const isLow = clientY + 18 + hint.offsetHeight > innerHeight;
    hint.style.left = Math.max(4, Math.min(clientX + 12, innerWidth - hint.offsetWidth - 4)) + "px";
    hint.style.top = (isLow ? clientY - 12 - hint.offsetHeight : clientY + 18) + "px";
  }
}
