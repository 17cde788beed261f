/* ---- Causes and messages: who held what, which cause a message has, where the window of a message stood. */

/** Which ids each window holds of each device, as the causes tell it. */
class Holders {
  sets = new Map();

  ids(channel, device) {
    const name = channel + ":" + device;
    if (!this.sets.has(name)) { this.sets.set(name, new Set()); }
    return this.sets.get(name);
  }

  sorted(channel, device) { return [...this.ids(channel, device)].sort((a, b) => a - b); }

  take({ word, device, id, channel, given, from, to, ids, lost }) {
    const drop = (windows, one) => windows.forEach((window) => this.ids(window, device).delete(one));
    if (word === "down") {
      given.forEach((window) => this.ids(window, device).add(id));
    } else if (word === "slip") {
      drop([from], id);
      this.ids(to, device).add(id);
    } else if (word === "up" || word === "palm") {
      drop(from, id);
    } else if (word === "reset") {
      from.forEach((window) => this.ids(window, device).clear());
    } else if (word === "pilfer" && ids) {
      ids.forEach((one) => drop(from, one));
    } else if (lost) {
      lost.fingers.forEach((part) => part.ids.forEach((one) => this.ids(channel, part.device).delete(one)));
    }
  }
}

/** Says at each down which ids the chosen and the touched window held before, and of each cause where its step began. */
function followHolders(causes) {
  const holders = new Holders();
  let head = null;
  for (const cause of causes) {
    if (cause.word === "down") {
      cause.held = holders.sorted(cause.chosen, cause.device);
      cause.touchedHeld = holders.sorted(cause.touched, cause.device);
    }
    head = ["gone", "focus", "target"].includes(cause.word) && head ? head : cause;
    cause.head = cause.word === "gone" ? head : cause;
    holders.take(cause);
  }
}

/** For each channel the places of its window's corner: since which cause, where, and on which display. */
function originsOf(snapshots) {
  const origins = new Map();
  for (const { index, windows } of snapshots) {
    for (const { channel, display, left, top } of windows) {
      const before = origins.get(channel) || [];
      origins.set(channel, before);
      before.push({ index, x: left, y: top, display });
    }
  }
  return origins;
}

/** The corner of a window as it stood before the cause with this index, or null. */
function originAt(origins, index) { return origins[firstWhere(origins.length, (k) => origins[k].index >= index) - 1] || null; }

/** The channels that a cause may tell something. */
function channelsOf({ word, given, outside, from, to, channel, before, after }) {
  const channels = {
    down: () => [...given, ...outside],
    slip: () => [from, to],
    key: () => [given, from, to],
    gone: () => [channel],
    timeout: () => [channel],
    focus: () => [before, after],
  };
  return (channels[word] ? channels[word]() : Array.isArray(from) ? from : []).filter((one) => one !== undefined && one !== null);
}

/** Whether a message ends this finger, or with null one of its device; as a cancel or not. */
function endsFinger({ kind, action, pointers, index, canceled, ...message }, device, id, asCancel) {
  const isOne = (pointer) => id === null || pointer.id === id;
  return kind === "motion" && message.device === device &&
    ((action === "POINTER_UP" && canceled === asCancel && isOne(pointers[index])) ||
      (action === (asCancel ? "CANCEL" : "UP") && pointers.some(isOne)));
}

function beginsFinger({ action, pointers, index, ...message }, device, id) {
  return (action === "DOWN" || action === "POINTER_DOWN") && message.device === device && pointers[index].id === id;
}

function cancelsKey(message, device, scan) {
  return message.kind === "key" && message.canceled && message.device === device && (scan === null || message.scan === scan);
}

/** Whether a message tells that fingers or keys were lost. */
function tellsLost({ lost }, message) {
  return lost.fingers.some(({ device }) => endsFinger(message, device, null, true)) ||
    lost.keys.some(({ device, scan }) => cancelsKey(message, device, scan));
}

/** Whether a cause of this word tells a channel a message. */
const TELLS = {
  down: ({ device, id, given }, message, channel) => (given.includes(channel) ? beginsFinger(message, device, id)
    : message.action === "OUTSIDE" && message.device === device && message.pointers[0].id === id),
  slip: ({ device, id, to }, message, channel) =>
    (to === channel ? beginsFinger(message, device, id) : endsFinger(message, device, id, true)),
  up: ({ device, id }, message) => endsFinger(message, device, id, false),
  palm: ({ device, id }, message) => endsFinger(message, device, id, true),
  reset: ({ device }, message) => endsFinger(message, device, null, true) || cancelsKey(message, device, null),
  pilfer: ({ device }, message) => endsFinger(message, device, null, true),
  gone: tellsLost,
  timeout: tellsLost,
  key: ({ device, scan, from, repeat }, message) => message.kind === "key" && message.device === device && message.scan === scan &&
    !message.canceled && message.down === (from === undefined) && message.repeat === (repeat || 0),
  focus: ({ before, after }, message, channel) => message.kind === "focus" && (message.gained ? after : before) === channel,
};

/** Gives each message its cause and the corner of its window. Answers a down that no message tells, where there is one. */
function linkCauses({ lanes, origins, names }, causes) {
  const byChannel = new Map();
  causes.forEach((cause) => channelsOf(cause).forEach((channel) => {
    byChannel.set(channel, byChannel.get(channel) || []);
    byChannel.get(channel).push(cause);
  }));
  for (const { section } of lanes) {
    linkSection(section, byChannel.get(section.id) || [], origins.get(section.id) || [], causes);
  }
  const misses = ({ told }) => (channel) => names.has(channel) && !told.has(channel);
  const cause = causes.find((one) => one.word === "down" && one.given.some(misses(one)));
  return cause ? { cause, channel: cause.given.find(misses(cause)) } : null;
}

/** Goes through the messages of a section and its causes side by side; both stand in the order of time. */
function linkSection({ id, messages }, mine, origins, causes) {
  let next = 0;
  for (const message of messages) {
    const { moment } = message;
    while (next < mine.length && mine[next].moment < moment) { next += 1; }
    let at = next;
    while (at < mine.length && mine[at].moment === moment && !TELLS[mine[at].word](mine[at], message, id)) { at += 1; }
    message.cause = at < mine.length && mine[at].moment === moment ? mine[at] : null;
    if (message.cause) {
      message.cause.told.add(id);
      // These may tell the channel of several losses.
      next = ["reset", "pilfer", "gone", "timeout"].includes(message.cause.word) ? at : at + 1;
    }
    const index = message.cause ? message.cause.head.index : firstWhere(causes.length, (k) => causes[k].moment > moment);
    message.origin = causes.length === 0 ? OWN_CORNER : originAt(origins, index);
  }
}

function isWithin({ x, y }, { left, top, right, bottom }) { return left <= x && x < right && top <= y && y < bottom; }

/** Fingers that no window got: where they went down, and until when. */
function fingersOfNobody(causes, origins) {
  const open = new Map();
  const alone = [];
  const displays = new Map();
  const walls = new Map();
  let shown = [];
  const close = (name, t) => {
    if (open.has(name)) {
      open.get(name).to = t;
      open.delete(name);
    }
  };
  for (const cause of causes) {
    const { word, device, id, t, touched, given } = cause;
    const origin = word === "down" && touched !== null && touched !== WALL ? originAt(origins.get(touched) || [], cause.index) : null;
    if (origin) { displays.set(device, origin.display); }
    if (word === "windows") { shown = cause.windows; }
    // A wall says its display only by its frame.
    const wall = word === "down" && touched === WALL && shown.find((one) => one.channel === WALL && isWithin(cause, one));
    if (wall) { walls.set(device, wall.display); }
    if (["down", "up", "palm"].includes(word)) {
      close(device + ":" + id, t);
    } else if (word === "reset") {
      [...open.keys()].filter((name) => name.startsWith(device + ":")).forEach((name) => close(name, t));
    }
    if (word === "down" && given.length === 0) {
      alone.push({ cause, device, from: t, to: Infinity });
      open.set(device + ":" + id, alone[alone.length - 1]);
    }
  }
  return alone.map((finger) => Object.assign(finger, { display: displays.get(finger.device) ?? walls.get(finger.device) ?? 0 }));
}
