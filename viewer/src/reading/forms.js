/* ---- Grammars. A line has one of some forms, spelled as the line is, with `{name:kind}` for each field. A text is read as
   bytes, one character each. */

const MAX_BYTES = 64 * 1024 * 1024;
const NUMBER = "(?:0|[1-9][0-9]*)";
const PLACE = "(?:0|-?[1-9][0-9]*)";
const SET = `(?:-|${NUMBER}(?:,${NUMBER})*)`;
// A wall, a window of nobody, stands in lists of windows where others have their channel.
const WALL = 0;
const WINDOW = `(?:wall|[1-9][0-9]*)`;
const LOST = `(?:${NUMBER}:${SET}|key ${NUMBER}:${NUMBER})`;

/** What may stand in a field: how it is spelled, and what is made of it; `undefined` where that is out of range. */
const KINDS = {
  // numbers within their types
  channel: [NUMBER, (digits) => countUpTo("64", digits)],
  device: [NUMBER, (digits) => countUpTo("8", digits)],
  moment: [NUMBER, (digits) => (isAbove(digits, "1000000000000000000") ? undefined : BigInt(digits))],
  u64: [NUMBER, (digits) => (isAbove(digits, "18446744073709551615") ? undefined : digits)],
  u32: [NUMBER, (digits) => (isAbove(digits, "4294967295") ? undefined : Number(digits))],
  u16: [NUMBER, (digits) => (isAbove(digits, "65535") ? undefined : Number(digits))],
  // the words of streams
  name: ["[!-~]{1,64}", String],
  action: [`(?:MOVE|DOWN|UP|CANCEL|OUTSIDE|POINTER_(?:DOWN|UP):${NUMBER})`, String],
  canceled: ["(?: canceled)?", (text) => text !== ""],
  obscured: ["(?: obscured)?", (text) => text !== ""],
  partly: ["(?: partly)?", (text) => text !== ""],
  pointers: [`(?: ${NUMBER}@${PLACE},${PLACE}){1,16}`, toPointers],
  way: ["(?:DOWN|UP|UP canceled)", String],
  bit: ["[01]", (digit) => digit === "1"],
  // the words of causes
  i: [PLACE, Number],
  c: [`(?:-|${NUMBER})`, (text) => (text === "-" ? null : Number(text))],
  n: [NUMBER, Number],
  w: [`(?:-|${WINDOW})`, (text) => (text === "-" ? null : toWindow(text))],
  s: [SET, toSet],
  lost: [`(?:-|${LOST}(?: ${LOST})*)`, toLost],
  row: ["(?:first|unsplit|nothing|whole|split)", String],
  blocked: [`(?: blocked ${NUMBER} by ${SET})*`, toBlocked],
  refused: ["(?:Gone|NotSpy|NothingHeld)", String],
  frames: [`(?: ${WINDOW}@${NUMBER}:${PLACE},${PLACE},${PLACE},${PLACE})*`, toFrames],
};

/** A text that is refused, with the number of its line. */
class BadLine extends Error {
  constructor(line) {
    super("BadLine " + line);
    this.line = line;
  }
}

/** Whether a number is above another one, both as decimal digits without leading zeros. */
function isAbove(digits, max) { return digits.length > max.length || (digits.length === max.length && digits > max); }

function countUpTo(max, digits) { return digits === "0" || isAbove(digits, max) ? undefined : Number(digits); }

/** Pointers with rising ids up to 31, at places of 32 bits. */
function toPointers(text) {
  const pointers = [];
  let least = 0;
  for (const word of text.slice(1).split(" ")) {
    const at = word.indexOf("@");
    const comma = word.indexOf(",");
    const pointer = { id: Number(word.slice(0, at)), x: Number(word.slice(at + 1, comma)), y: Number(word.slice(comma + 1)) };
    if (pointer.id < least || pointer.id > 31 || pointer.x !== (pointer.x | 0) || pointer.y !== (pointer.y | 0)) {
      return undefined;
    }
    least = pointer.id + 1;
    pointers.push(pointer);
  }
  return pointers;
}

function toSet(text) {
  const numbers = text === "-" ? [] : text.split(",").map(Number);
  return numbers.every((number, k) => k === 0 || numbers[k - 1] < number) ? numbers : undefined;
}

/** A window by its channel, or a wall. */
function toWindow(text) { return text === "wall" ? WALL : Number(text); }

/** Windows that are blocked, in rising order, each with those that block it: none where only walls do. */
function toBlocked(text) {
  const blocked = [...text.matchAll(/ blocked ([0-9]+) by (-|[0-9,]+)/g)].map(([, channel, by]) => ({ channel: Number(channel), by: toSet(by) }));
  return blocked.every(({ channel, by }, k) => by && (k === 0 || blocked[k - 1].channel < channel)) ? blocked : undefined;
}

/** What a window lost: ids of devices, and keys. */
function toLost(text) {
  const lost = { fingers: [], keys: [] };
  for (const [, key, device, what] of text.matchAll(/(key )?([0-9]+):(-|[0-9,]+)/g)) {
    if (key) {
      lost.keys.push({ device: Number(device), scan: Number(what) });
    } else {
      lost.fingers.push({ device: Number(device), ids: toSet(what) });
    }
  }
  return lost.fingers.every(({ ids }) => ids) ? lost : undefined;
}

/** Windows, front to back. */
function toFrames(text) {
  return text.split(" ").slice(1).map((word) => {
    const [window, ...numbers] = word.split(/[@:,]/);
    const [display, left, top, right, bottom] = numbers.map(Number);
    return { channel: toWindow(window), display, left, top, right, bottom };
  });
}

/** A form from its spelling: a pattern, and what is made of each field. */
function formOf(spelling) {
  const fields = [];
  const makes = [];
  const pattern = spelling.replace(/\{(\w+):(\w+)\}/g, (whole, name, kind) => {
    fields.push(name);
    makes.push(KINDS[kind][1]);
    return "(" + KINDS[kind][0] + ")";
  });
  return { word: /^[a-z]*/.exec(spelling)[0], pattern: new RegExp("^" + pattern + "$"), fields, makes };
}

/** The fields of a line that has a form, or null. */
function readForm(form, line) {
  const found = form.pattern.exec(line);
  const read = {};
  for (let k = 0; found && k < form.fields.length; k += 1) {
    const value = form.makes[k](found[k + 1]);
    if (value === undefined) { return null; }
    read[form.fields[k]] = value;
  }
  return found ? read : null;
}

/** The lines of a text without their newlines; `isWhole` says of a line whether it has its own. */
function linesOf(text) {
  const lines = text.split("\n");
  const last = lines.pop();
  const count = lines.length;
  return { lines: last === "" ? lines : [...lines, last], isWhole: (k) => k < count };
}
