/* ---- Places to jump to, and which windows are drawn in which order. */

/** The windows that are drawn, from the top. */
function shownLanes(model) { return model.order.map((number) => model.lanes[number]).filter((lane) => !model.hidden.has(lane.number)); }

/** Draws these windows alone, in this order; numbers of lanes from 0 on. Those that an order leaves out stand behind the others. */
function setLanes(model, order, hidden) {
  const named = order.filter((number, k) => model.lanes[number] && order.indexOf(number) === k);
  model.order = [...named, ...model.lanes.map(({ number }) => number).filter((number) => !named.includes(number))];
  model.hidden = new Set(hidden.filter((number) => model.lanes[number]));
  model.shown = shownLanes(model);
}

/** Whether a message cancels fingers or a key. */
function isCancel({ action, canceled }) { return action === "CANCEL" || canceled === true; }

/** The kinds of place that can be jumped to: of messages, and of marks. */
const PLACES = {
  cancel: { message: isCancel },
  anr: { mark: ({ what }) => what === "timeout" },
  removal: { mark: ({ what }) => what === "removed" },
  focus: { message: ({ kind }) => kind === "focus" },
  mark: { mark: () => true },
};

/** The places of drawn windows that messages or marks make, in the order of time and then from the top. */
function placesOf(model, { message = () => false, mark = () => false }) {
  const places = model.shown.flatMap((lane, height) => [
    ...lane.section.messages.flatMap((one, at) => (message(one, lane) ? [{ lane, at, event: null, t: one.t, height }] : [])),
    ...lane.events.flatMap((event) => (mark(event, lane) ? [{ lane, at: null, event, t: event.t, height }] : [])),
  ]);
  return places.sort((a, b) => a.t - b.t || a.height - b.height);
}

/** What a search finds: where it is the name of a kind of place those, where windows have it in their names their first messages, and else lines with it. */
function soughtPlaces(model, stream, sought) {
  const word = sought.trim().toLowerCase();
  const kind = { cancel: "cancel", cancelled: "cancel", anr: "anr", timeout: "anr", removal: "removal", removed: "removal", focus: "focus" }[word];
  if (word === "" || kind) { return kind ? placesOf(model, PLACES[kind]) : []; }
  const named = model.shown.filter(({ section }) => section.name.toLowerCase().includes(word));
  if (named.length > 0) {
    return named.map((lane) => (lane.section.messages.length > 0 ? { lane, at: 0, event: null, t: lane.section.messages[0].t } : { lane, at: null, event: null, t: 0 }));
  }
  return placesOf(model, { message: ({ line }) => stream.lines[line - 1].toLowerCase().includes(word) });
}

/** The first and the last time of the gesture, or of the key or the focus, that a message is part of. */
function gestureAround({ section, rows }, at) {
  const { messages } = section;
  const { kind, device, action } = messages[at];
  if (kind === "motion" && action !== "OUTSIDE") {
    const mine = (one) => one.kind === "motion" && one.device === device && one.action !== "OUTSIDE";
    let first = at;
    let last = at;
    for (let k = at; k >= 0; k -= 1) {
      if (mine(messages[k])) { first = k; }
      if (mine(messages[k]) && messages[k].action === "DOWN") { break; }
    }
    for (let k = at; k < messages.length; k += 1) {
      if (mine(messages[k])) { last = k; }
      if (mine(messages[k]) && (messages[k].action === "UP" || messages[k].action === "CANCEL")) { break; }
    }
    return { from: messages[first].t, to: messages[last].t };
  }
  const bar = rows.flatMap((row) => row.bars).find(({ marks }) => marks.includes(at));
  return bar ? { from: bar.from === undefined ? messages[at].t : bar.from, to: bar.to === undefined ? messages[at].t : bar.to } : { from: messages[at].t, to: messages[at].t };
}
