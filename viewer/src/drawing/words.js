/* ---- Words. A sentence is a list of texts and names; names are drawn as text in another face, and never as HTML. */

const KEY_NAMES = new Map([
  [3, "HOME"], [4, "BACK"], [24, "VOLUME_UP"], [25, "VOLUME_DOWN"], [26, "POWER"], [57, "ALT_LEFT"], [58, "ALT_RIGHT"],
  [59, "SHIFT_LEFT"], [60, "SHIFT_RIGHT"], [61, "TAB"], [62, "SPACE"], [66, "ENTER"], [67, "DEL"], [82, "MENU"],
  [111, "ESCAPE"], [113, "CTRL_LEFT"], [114, "CTRL_RIGHT"],
  ...[..."0123456789"].map((digit, k) => [7 + k, digit]),
  ...[..."ABCDEFGHIJKLMNOPQRSTUVWXYZ"].map((letter, k) => [29 + k, letter]),
]);

/** A sentence from a template whose values may be texts, numbers, names and sentences. */
function words(texts, ...values) {
  return texts.flatMap((text, k) => [text, values[k] === undefined ? "" : values[k]]).flat(Infinity).filter((piece) => piece !== "");
}

/** A sentence as plain text. */
function plain(sentence) {
  return sentence.map((piece) => (piece.name === undefined ? String(piece) : "`" + piece.name + "`")).join("");
}

/** A list of sentences with commas, and `and` before the last. */
function listed(sentences) {
  return sentences.map((sentence, k) => [k === 0 ? "" : k === sentences.length - 1 ? " and " : ", ", sentence]).flat(Infinity);
}

function fingersIn(ids) { return [ids.length === 1 ? "finger " : "fingers ", ...listed(ids.map((id) => [String(id)]))]; }

/** The name of a channel, of which the model knows those that have a section. */
function nameOf(channel) {
  const { names } = state.model;
  return channel === null ? "nobody" : channel === WALL ? "a window of nobody" : names.has(channel) ? { name: names.get(channel) } : "channel " + channel;
}

function namesOf(channels) { return channels.length === 0 ? ["nobody"] : listed(channels.map((channel) => [nameOf(channel)])); }

/** What blocks a window: a set that has no walls. */
function blockersOf(by) { return by.length === 0 ? nameOf(WALL) : namesOf(by); }

/** A place, and with its window's corner also where that is on the display. */
function placeOf(pointer, origin) {
  const own = `(${pointer.x}, ${pointer.y})`;
  const moved = origin && (origin.x !== 0 || origin.y !== 0);
  return moved ? `${own} of the window, (${pointer.x + origin.x}, ${pointer.y + origin.y}) of the display` : own;
}

/** What a message says. */
function sayMessage(message) {
  const say = { motion: sayMotion, key: sayKey, focus: ({ gained }) => [gained ? "The window gets the focus." : "The window loses the focus."] };
  return say[message.kind](message);
}

function sayKey({ device, scan, code, meta, down, canceled, repeat }) {
  const name = KEY_NAMES.has(code) ? ` (${KEY_NAMES.get(code)})` : "";
  const what = down ? (repeat === 0 ? "goes down" : `is still down, repeat ${repeat}`) : canceled ? "is cancelled" : "goes up";
  return [`Key ${scan}${name} of device ${device} ${what}${meta === 0 ? "" : `, with meta bits ${meta}`}.`];
}

/** What the marks of a motion say. */
function coverOf({ obscured, partly }) {
  return [obscured ? " A window of another owner covers a finger." : "", partly ? " A window of another owner covers a part of this one." : ""];
}

function sayMotion({ device, action, index, canceled, pointers, origin, ...marks }) {
  const { id } = pointers[index];
  const at = placeOf(pointers[index], origin);
  const others = fingersIn(pointers.filter((pointer) => pointer.id !== id).map((pointer) => pointer.id));
  const places = listed(pointers.map((pointer) => [`finger ${pointer.id} at ${placeOf(pointer, origin)}`]));
  const say = {
    DOWN: () => words`Finger ${id} goes down at ${at}, the first of its gesture.`,
    POINTER_DOWN: () => words`Finger ${id} goes down at ${at}, beside ${others}.`,
    MOVE: () => words`Held: ${places}.`,
    POINTER_UP: () => words`Finger ${id} ${canceled ? "is cancelled" : "goes up"} at ${at}, beside ${others}.`,
    UP: () => words`Finger ${id} goes up at ${at}, the last of its gesture.`,
    CANCEL: () => words`All is cancelled: ${places}.`,
    OUTSIDE: () => words`Finger ${id} went down outside the window, at ${at}.`,
  };
  return [...say[action](), ` Device ${device}.`, ...coverOf(marks)];
}

/** What was lost, or nothing. */
function lostIn({ fingers, keys }) {
  const parts = fingers.map(({ device, ids }) => words`${fingersIn(ids)} of device ${device}`);
  keys.forEach(({ device, scan }) => parts.push(words`key ${scan} of device ${device}`));
  return parts.length === 0 ? ["nothing"] : listed(parts);
}

/** Why this window was chosen for a finger: the row of the rule. */
function reasonOf({ row, device, touched, chosen, held, touchedHeld }) {
  const t = nameOf(touched);
  const c = nameOf(chosen);
  const holds = held.length > 0 ? words`holds ${fingersIn(held)}` : "held a finger";
  const say = {
    first: () => (touched === null ? words`no window is there, and none held a finger of device ${device}`
      : words`no window but spies held a finger of device ${device}`),
    unsplit: () => words`${c} ${holds} and prevents splitting`,
    nothing: () => words`no window is there, and ${c} ${holds}, the first to hold one`,
    whole: () => words`${t} prevents splitting and holds no finger of device ${device}, and ${c} ${holds}, the first to hold one`,
    split: () => (touchedHeld.length > 0 ? words`${t} holds ${fingersIn(touchedHeld)} already`
      : words`no holder prevents splitting, nor does ${t}`),
  };
  return say[row]();
}

/** What came of the choice. */
function resultOf({ device, chosen, given, mute, pilfering, blocked }) {
  const c = nameOf(chosen);
  const block = blocked.find(({ channel }) => channel === chosen);
  return chosen === null ? words`so no window was chosen`
    : chosen === WALL ? words`so ${c} took it`
    : given.includes(chosen) ? words`so ${c} got it`
    : mute.includes(chosen) ? words`so it was for ${c}, which does not respond and got nothing`
    : block ? words`so it was for ${c}, which is blocked by ${blockersOf(block.by)} and got nothing`
    : words`so it was for ${c}, but ${namesOf(pilfering)} took device ${device} for itself`;
}

/** Who else got the finger, or was sent a touch outside. */
function besides({ chosen, given, mute, pilfering, outside, blocked }) {
  const others = given.filter((channel) => channel !== chosen);
  const silent = mute.filter((channel) => channel !== chosen);
  const hidden = blocked.filter(({ channel }) => channel !== chosen);
  return [
    others.length === 0 ? [] : pilfering.length > 0 ? words`; ${namesOf(others)} alone got it` : words`; ${namesOf(others)} got it${chosen === WALL ? "" : " too"}, as a spy`,
    silent.length === 0 ? [] : words`; ${namesOf(silent)} does not respond and got nothing`,
    ...hidden.map(({ channel, by }) => words`; ${nameOf(channel)} is blocked by ${blockersOf(by)} and got nothing`),
    given.length > 0 ? [] : words`; nobody got it`,
    outside.length === 0 ? [] : words`; ${namesOf(outside)} was sent a touch outside`,
  ];
}

/** What came of asking for a device. */
function pilferResult({ refused, ids, from }) {
  const say = { Gone: "but it was removed", NotSpy: "but it is no spy", NothingHeld: "but it held no finger of it" };
  return refused ? say[refused] : words`and kept ${fingersIn(ids)}, so ${namesOf(from)} lost what it held of them`;
}

/** What a cause says, by its word. */
const SAY = {
  down: (c) => words`finger ${c.id} went down at (${c.x}, ${c.y}) over ${c.touched === null ? "no window" : nameOf(c.touched)}; ${
    reasonOf(c)}, ${resultOf(c)}${besides(c)}`,
  slip: ({ id, x, y, from, to }) =>
    words`finger ${id} moved to (${x}, ${y}), over ${nameOf(to)}; ${nameOf(from)} is slippery, so ${nameOf(to)} got it from there`,
  up: ({ id, from }) => words`finger ${id} went up; ${namesOf(from)} held it`,
  palm: ({ id, from }) => words`finger ${id} turned out to be a palm, so it was cancelled; ${namesOf(from)} held it`,
  reset: ({ device, from }) =>
    words`device ${device} lost events and began anew, so all that it had down was cancelled; ${namesOf(from)} held some of it`,
  key: ({ device, scan, target, given, from, to, repeat }) => words`key ${scan} of device ${device} ${
    repeat !== undefined ? words`stayed down, so ${nameOf(to)} was sent repeat ${repeat}`
    : from !== undefined ? words`went up; ${nameOf(from)} held it`
    : target === null ? words`went down; no window had the focus, so nobody got it`
    : given === null ? words`went down; keys went to ${nameOf(target)}, which does not respond, so nobody got it`
    : words`went down; keys went to ${nameOf(target)}, so ${nameOf(given)} got it`}`,
  pilfer: (c) => words`${nameOf(c.channel)} asked to have device ${c.device} for itself, ${pilferResult(c)}`,
  timeout: ({ channel, seq, lost }) =>
    words`${nameOf(channel)} did not finish message ${seq} in time and counts as unresponsive; it lost ${lostIn(lost)}`,
  responsive: ({ channel }) => words`${nameOf(channel)} finished what was late, and is responsive again`,
  removed: ({ channel, lost, refused }) => (refused ? words`${nameOf(channel)} had been removed before`
    : words`${nameOf(channel)} was removed; it held ${lostIn(lost)}, and is sent nothing more`),
  request: ({ display, channel }) => words`the focus of display ${display} was requested for ${nameOf(channel)}`,
  gone: ({ channel, lost, head }) => words`${head.word === "windows" ? "the windows changed" : "the focus was requested elsewhere"}, and ${
    nameOf(channel)} lost ${lostIn(lost)}`,
  focus: ({ display, before, after }) => words`the focus of display ${display} went from ${nameOf(before)} to ${nameOf(after)}`,
  target: ({ before, after }) => words`keys go to ${nameOf(after)}, and no longer to ${nameOf(before)}`,
  windows: ({ windows }) => words`the windows are, front to back, ${namesOf(windows.map(({ channel }) => channel))}`,
};
