/* ---- What a file is, told by what stands in it, and never by its name. */

const RECORDING_KINDS = [
  [readEvemu, /^E: *\d+\.\d+ +[0-9a-fA-F]+ +[0-9a-fA-F]+ +-?\d+|^# EVEMU \d/],
  [readLibinput, /^\s*- node: *\/|^\s*- evdev:/],
  [readEvtest, /^Event: time \d/],
  [readGetevent, EVENT_LINE],
  [readGetevent, /^\s*\[ *\d+\.\d+ *\] +(\/\S*: +)?(EV_\w+|[0-9a-fA-F]{4}) +\S+ +\S+|^\d+-\d+: \//],
];

/** Bytes at the beginning of files of other kinds, one character each. */
const MAGIC = [
  ["\x89PNG", "a PNG image"], ["\xff\xd8\xff", "a JPEG image"], ["GIF8", "a GIF image"], ["RIFF", "a RIFF file"],
  ["PK\x03\x04", "a zip archive; unpack it first"], ["\xfd7zXZ\x00", "packed with xz; unpack it first"],
  ["BZh", "packed with bzip2; unpack it first"], ["\x28\xb5\x2f\xfd", "packed with zstd; unpack it first"],
  ["7z\xbc\xaf", "a 7z archive; unpack it first"], ["%PDF", "a PDF document"], ["\x7fELF", "an ELF program"],
  ["\x00asm", "a WebAssembly module"], ["SQLite format 3", "an SQLite database"],
];

const OTHER_TEXTS = [
  [/^\s*add device \d+: \//m, "what getevent -p prints: devices without events. Record with getevent -t"],
  [/^\s*(\/\S*:\s+)?[0-9a-fA-F]{4} +[0-9a-fA-F]{4} +[0-9a-fA-F]{8}/m, "what getevent prints without -t: no moments. Record with getevent -t"],
  [/^\s*(\/\S*:\s+)?EV_[A-Z]+\s+\S+\s+\S+/m, "what getevent -l prints without -t: no moments. Record with getevent -lt"],
  [/^\s*sendevent \//m, "a script of sendevent, which has no moments"],
  [/Input Dispatcher State|Event Hub State|DUMP OF SERVICE input/, "what dumpsys input prints: tools/session makes a session of it"],
  [/^[- ]event\d+\s+[A-Z_]+\s+\+/m, "what libinput debug-events prints, which is no event of the kernel"],
  [/MotionEvent \{ ?action=/, "a log of MotionEvent: tools/logs makes streams of it"],
  [/wl_touch@\d+\./, "a log of WAYLAND_DEBUG: tools/logs makes streams of it"],
  [/^EVENT type \d+ \(/m, "what xinput test-xi2 prints: tools/logs makes streams of it"],
  [/^\[ *\d+\.\d+\] [A-Za-z]/m, "a log of the kernel, as dmesg prints it"],
  [/^(channel \d+ whole \d+\n)*judged \d+ \d+$/m, "what judge prints; drop the streams that it judged"],
  [/^lines \d+ blank \d+ /, "what inspect prints; drop the session and the recording"],
  [/^<\?xml|^<!DOCTYPE|^<html/im, "XML or HTML"],
  [/^\s*[[{]\s*["{[]/, "JSON"],
];

const SESSION_TEXT = /^\s*\[\[?\s*(display|extra_display|device|channel|step)\s*\]\]?\s*(#.*)?$|^\s*(display|extra_display|device|channel|step|end_us|repeat_us|repeat)\s*[.=]/m;

/** Whether bytes are events as `cat /dev/input/event2` gives them: seconds, microseconds, type, code, value. */
function isBinaryEvents(bytes, wordSize) {
  const size = 2 * wordSize + 8;
  const count = Math.min(Math.floor(bytes.length / size), 64);
  const view = new DataView(bytes.buffer, bytes.byteOffset, bytes.byteLength);
  let ends = 0;
  for (let k = 0; k < count; k += 1) {
    const at = k * size + wordSize;
    const type = view.getUint16(at + wordSize, true);
    const code = view.getUint16(at + wordSize + 2, true);
    if (view.getUint32(at, true) >= 1000000 || type >= 0x20 || code >= 0x300) { return false; }
    ends += type === 0 && code === 0 ? 1 : 0;
  }
  return ends > 0;
}

/** What bytes look like that are of no kind that the page takes. */
function looksLike(bytes, text) {
  const head = latin(bytes.subarray(0, 16));
  const magic = MAGIC.find(([begin]) => bytesOf(begin).every((byte, k) => bytes[k] === byte));
  if (bytes.length === 0) { return "an empty file"; }
  if (magic) { return magic[1]; }
  for (const [wordSize, bits] of [[8, 64], [4, 32]]) {
    if (isBinaryEvents(bytes, wordSize)) { return `struct input_event of ${bits} bits in binary; record with getevent -t`; }
  }
  if (head.includes("\x00") || latin(bytes.subarray(0, 65536)).includes("\x00")) { return "a binary file, of no kind that is known here"; }
  const found = OTHER_TEXTS.find(([form]) => form.test(text.slice(0, 1000000)));
  return found ? found[1] : "a text of no kind that is known here";
}

/** The lines of a text, one after the other, without their ends. */
function* eachLine(text) {
  for (let at = 0; at < text.length;) {
    const end = text.indexOf("\n", at);
    const line = text.slice(at, end < 0 ? text.length : end);
    yield line.endsWith("\r") ? line.slice(0, -1) : line;
    at += line.length + 1;
  }
}

/** Of which kind a recording is, by the first line that says so: that kind's reader; null where none does. */
function recordingKind(text) {
  for (const line of eachLine(text)) {
    const kind = RECORDING_KINDS.find(([, form]) => form.test(line));
    if (kind) { return { read: kind[0], isPlain: EVENT_LINE.test(line) }; }
  }
  return null;
}

/** Whether a text begins as streams do, perhaps behind an order, or is an order alone. */
function streamKind(text) {
  const order = /^order (\d+)\n/.exec(text);
  if (order) { return /^channel \d+ /m.test(text) ? "stream" : "order"; }
  return /^channel \S+ \S+\n/.test(text) ? "stream" : null;
}

/** A recording as the program reads it: bytes of lines of `getevent -t`. One that is so already keeps its lines, but for a last one that was cut. */
function importedRecording(kind, text, bytes, said) {
  if (kind.isPlain) {
    const last = text.slice(text.lastIndexOf("\n") + 1);
    const isCut = /^[ \t]*\[/.test(last) && !EVENT_LINE.test(last.replace(/\r$/, ""));
    if (isCut) { said.push(`the last line was cut and is left out: ${last.slice(0, 57)}`); }
    return { bytes: isCut ? bytes.subarray(0, bytes.length - last.length) : bytes, read: null };
  }
  const { lines, isWhole } = linesOf(text);
  const read = kind.read(lines.map((line) => line.replace(/\r$/, "")), isWhole);
  if (read.lost > 0) { read.said.push(`lines that are no events of the kernel, and are left out: ${read.lost}`); }
  if (read.events.length === 0) { throw new Refused("no event stands in it"); }
  said.push(...read.said);
  return { bytes: bytesOf(read.events.map((event) => eventLine(event) + "\n").join("")), read };
}

/** A file with its kind: `session`, `recording`, `stream`, `causes` or `order`, or `wrong` with what it is instead. */
async function tellApart(name, fileBytes) {
  const { text, bytes, said } = await textOf(fileBytes);
  const file = { name, said, text, bytes, size: fileBytes.length };
  const kind = streamKind(text) || (looksLikeCauses(text) ? "causes" : null);
  const recording = kind ? null : recordingKind(text);
  if (kind) { return { ...file, kind }; }
  if (!recording) {
    return SESSION_TEXT.test(bareLines(text).join("\n")) ? { ...file, kind: "session" } : { ...file, kind: "wrong", wrong: "it looks like " + looksLike(fileBytes, text) };
  }
  try {
    return { ...file, kind: "recording", ...importedRecording(recording, text, bytes, said) };
  } catch (error) {
    if (!(error instanceof Refused)) { throw error; }
    return { ...file, kind: "wrong", wrong: "it is a recording, but " + error.message };
  }
}
