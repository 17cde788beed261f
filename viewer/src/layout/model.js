/* ---- The model: for each window rows of bars, and for each message its cause and where its window stood. */

/** Where a window stands of which nothing is known: its places are counted from its own corner. */
const OWN_CORNER = { x: 0, y: 0, display: null };

/** The first place below `length` where `isBehind` holds, or `length`; behind such a place it holds everywhere. */
function firstWhere(length, isBehind) {
  let low = 0;
  let high = length;
  while (low < high) {
    const middle = (low + high) >> 1;
    if (isBehind(middle)) {
      high = middle;
    } else {
      low = middle + 1;
    }
  }
  return low;
}

/** Collects the bars of a section from its messages. A bar has the places of its messages in the section. */
class BarMaker {
  fingers = new Map();
  keys = [];
  focused = [];
  outside = [];
  open = new Map();

  constructor(messages) { messages.forEach((message, at) => this[message.kind](message, at)); }

  motion({ device, action, index, canceled, obscured, partly, pointers }, at) {
    if (action === "OUTSIDE") {
      this.outside.push({ marks: [at], open: false, canceled: false });
      return;
    }
    pointers.forEach(({ id }, k) => {
      const name = device + ":" + id;
      if (!this.fingers.has(name)) { this.fingers.set(name, { device, id, bars: [] }); }
      const isOne = k === index;
      this.goOn(name, at, this.fingers.get(name).bars, { device, id }, action === "DOWN" || (action === "POINTER_DOWN" && isOne));
      if (obscured) { this.open.get(name).obscured = true; }
      if (partly) { this.open.get(name).partly = true; }
      if (action === "UP" || action === "CANCEL" || (action === "POINTER_UP" && isOne)) {
        this.close(name, action === "CANCEL" || canceled);
      }
    });
  }

  key({ device, scan, code, down, canceled, repeat }, at) {
    const name = "key " + device + ":" + scan;
    this.goOn(name, at, this.keys, { device, scan, code }, down && repeat === 0);
    if (!down) { this.close(name, canceled); }
  }

  focus({ gained }, at) {
    this.goOn("focus", at, this.focused, {}, gained);
    if (!gained) { this.close("focus", false); }
  }

  /** Adds a message to the bar of this name, or begins one: where the message does, or where none is open. */
  goOn(name, at, bars, what, begins) {
    if (begins || !this.open.has(name)) {
      this.open.set(name, { ...what, marks: [], open: true, canceled: false });
      bars.push(this.open.get(name));
    }
    this.open.get(name).marks.push(at);
  }

  close(name, canceled) {
    Object.assign(this.open.get(name), { open: false, canceled });
    this.open.delete(name);
  }
}

/** A row of bars that do not overlap, with all their messages in one list and their times beside them. */
function makeRow(kind, bars, messages, more) {
  const marks = bars.flatMap((bar) => bar.marks);
  let first = 0;
  for (const bar of bars) {
    Object.assign(bar, { first, last: first + bar.marks.length - 1 });
    first += bar.marks.length;
  }
  return { kind, bars, marks: Int32Array.from(marks), times: Float64Array.from(marks, (at) => messages[at].t), ...more };
}

/** Lays bars that may overlap into as few lists as go, each in the first one that is free. */
function packed(bars, messages) {
  const lists = [];
  const ends = [];
  for (const bar of bars) {
    const from = messages[bar.marks[0]].t;
    const free = ends.findIndex((end) => end <= from);
    const k = free < 0 ? lists.push([]) - 1 : free;
    lists[k].push(bar);
    ends[k] = bar.open ? Infinity : messages[bar.marks[bar.marks.length - 1]].t;
  }
  return lists;
}

/** The rows of a section: its fingers by device and id, touches outside, keys, the focus. */
function makeRows({ messages }) {
  const made = new BarMaker(messages);
  const fingers = [...made.fingers.values()].sort((a, b) => a.device - b.device || a.id - b.id);
  return [
    ...fingers.map(({ bars, device, id }) => makeRow("finger", bars, messages, { device, id })),
    ...[made.outside].filter((bars) => bars.length > 0).map((bars) => makeRow("outside", bars, messages)),
    ...packed(made.keys, messages).map((bars) => makeRow("key", bars, messages)),
    ...[made.focused].filter((bars) => bars.length > 0).map((bars) => makeRow("focus", bars, messages)),
  ];
}

/** Whether a message or a cause comes from an event of a device. */
function isOfDevice({ kind, word }) { return kind ? kind !== "focus" : ["down", "slip", "up", "palm", "reset", "key"].includes(word); }

function leastMoment(list) { return list.reduce((least, { moment }) => (least === null || moment < least ? moment : least), null); }

/** Gives each message, naming and cause its time: microseconds from the first event of a device, or from the first line where there is none. What comes
    before, as windows at moment 0 on a phone that was up for days, is laid evenly into a stub from `first` to 0, which stands for `before` microseconds.
    Where moments fall in a section, the greatest so far is taken; `fall` is the first such line. */
function setTimes({ sections, namings }, causes) {
  const messages = sections.flatMap((section) => section.messages);
  const all = [...namings, ...messages, ...causes];
  const begin = leastMoment(all) || 0n;
  const event = leastMoment([...messages, ...causes].filter(isOfDevice));
  const zero = event === null ? begin : event;
  all.forEach((one) => { one.t = Number(one.moment - zero); });
  const last = all.reduce((most, { t }) => Math.max(most, t), 0);
  const times = { zero, last, before: zero - begin, first: begin < zero ? -Math.max(last * 0.08, 1000) : 0, pad: Math.max(last * 0.04, 500) };
  layStub(all.filter(({ t }) => t < 0), times.first);
  return { ...times, fall: raiseTimes(sections) };
}

/** Lays what comes before the first event into the stub, moment after moment. */
function layStub(early, first) {
  const moments = [...new Set(early.map(({ moment }) => moment))].sort((a, b) => (a < b ? -1 : 1));
  const places = new Map(moments.map((moment, k) => [moment, first * (moments.length - k) / (moments.length + 1)]));
  early.forEach((one) => { one.t = places.get(one.moment); });
}

/** Lets no time fall in a section. Answers the first line whose moment does, or null. */
function raiseTimes(sections) {
  let fall = null;
  for (const { messages } of sections) {
    for (let k = 1; k < messages.length; k += 1) {
      fall = fall === null && messages[k].t < messages[k - 1].t ? messages[k].line : fall;
      messages[k].t = Math.max(messages[k].t, messages[k - 1].t);
    }
  }
  return fall;
}

/** The marks of a lane: its timeouts, and of the causes those that remove it or find it responsive again. */
function laneEvents({ id }, namings, causes) {
  const mine = causes.filter(({ channel, refused }) => channel === id && !refused);
  const timeouts = namings.filter((naming) => naming.id === id).map((naming) => {
    const { t, line, moment, seq } = naming;
    const cause = mine.find((one) => one.word === "timeout" && one.moment === moment && String(one.seq) === seq);
    return { what: "timeout", t, line, moment, naming, cause };
  });
  const others = mine.filter(({ word }) => word === "removed" || word === "responsive");
  return [...timeouts, ...others.map((cause) => ({ what: cause.word, t: cause.t, moment: cause.moment, cause }))].sort((a, b) => a.t - b.t);
}

/** A section with its rows, where its bars begin and end. What is still down goes on to the end, or to where the window was removed. */
function makeLane(section, number, { namings }, causes, end) {
  const lane = { section, number, rows: makeRows(section), events: laneEvents(section, namings, causes) };
  const removed = lane.events.find(({ what }) => what === "removed");
  for (const row of lane.rows) {
    row.bars.forEach((bar, k) => {
      const to = row.times[bar.last];
      const openTo = row.bars[k + 1] ? row.times[row.bars[k + 1].first] : removed ? Math.max(removed.t, to) : end;
      Object.assign(bar, { from: row.times[bar.first], to: bar.open ? openTo : to });
    });
    row.lane = lane;
    row.kept = row.bars.filter(({ canceled }) => !canceled);
    row.canceled = row.bars.filter(({ canceled }) => canceled);
  }
  return lane;
}

/** All that the page draws, from a stream and causes, of which there may be none, and the extents of displays that are known. */
function makeModel(stream, causes, displays = new Map()) {
  const model = { stream, ...setTimes(stream, causes), names: new Map(stream.sections.map(({ id, name }) => [id, name])) };
  model.lanes = stream.sections.map((section, number) => makeLane(section, number, stream, causes, model.last + model.pad * 0.75));
  model.snapshots = causes.filter(({ word }) => word === "windows");
  model.origins = originsOf(model.snapshots);
  followHolders(causes);
  model.untold = linkCauses(model, causes);
  model.alone = fingersOfNobody(causes, model.origins);
  model.surfaces = makeSurfaces(model, displays);
  setLanes(model, [], []);
  return model;
}

/** How many bars there are of each kind, how many of them are cancelled and how many still open at the end. */
function countBars({ lanes, stream }) {
  const rows = lanes.flatMap((lane) => lane.rows);
  const counts = {
    channels: lanes.length,
    messages: lanes.reduce((sum, { section }) => sum + section.messages.length, 0),
    timeouts: stream.namings.length,
    removed: lanes.flatMap(({ events }) => events).filter(({ what }) => what === "removed").length,
  };
  for (const kind of ["finger", "key", "focus", "outside"]) {
    const bars = rows.filter((row) => row.kind === kind).flatMap((row) => row.bars);
    counts[kind] = { bars: bars.length, canceled: bars.filter((bar) => bar.canceled).length, open: bars.filter((bar) => bar.open).length };
  }
  return counts;
}
