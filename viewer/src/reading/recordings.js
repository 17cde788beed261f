/* ---- Recordings of the kernel's events: the kinds in which they are kept, each read into events and the devices that it describes. An event is
   { moment, path, type, code, value } with the moment in microseconds and the value as 32 bits without a sign. */

const EVENT_LINE = /^[ \t]*\[[ \t]*(\d{1,12})\.(\d{6})[ \t]*\][ \t]+(?:(\/\S*):[ \t]+)?([0-9a-fA-F]{4})[ \t]+([0-9a-fA-F]{4})[ \t]+([0-9a-fA-F]{8})[ \t]*$/;
const LABEL_LINE = /^[ \t]*\[ *(\d{1,12})\.(\d{6}) *\] +(?:(\/\S*): +)?(\S+) +(\S+) +(\S+) *$/;
const OLD_LINE = /^(\d{1,12})-(\d{1,6}): (?:(\/\S*): )?([0-9a-fA-F]{4}) ([0-9a-fA-F]{4}) ([0-9a-fA-F]{8}) *$/;
const BARE_LINE = /^[ \t]*(\/.*|[0-9a-fA-F]{4}[ \t]+[0-9a-fA-F]{4}[ \t]+[0-9a-fA-F]{8}[ \t]*)$/;
const RATE = / rate -?\d+ *$/;

/** A recording that is refused. */
class Refused extends Error {}

/** What a file gives. */
class Recording {
  events = [];
  devices = new Map();
  said = [];
  lost = 0;

  device(path) {
    if (!this.devices.has(path)) { this.devices.set(path, { path, name: "", codes: new Map(), axes: new Map() }); }
    return this.devices.get(path);
  }

  add(seconds, fraction, path, type, code, value) {
    if (!(value >= -2147483648 && value < 4294967296)) { throw new Refused(`the value ${value} has more than 32 bits`); }
    this.events.push({ moment: BigInt(seconds) * 1000000n + BigInt(fraction), path, type, code, value: value >>> 0 });
  }

  /** A line that begins as an event and is none: the last one may be cut, any other is refused. */
  cut(number, line, isLast) {
    if (!isLast) { throw new Refused(`line ${number} begins as an event and is none: ${line.slice(0, 57)}`); }
    this.said.push(`the last line was cut and is left out: ${line.slice(0, 57)}`);
  }
}

function addCode(device, type, code) {
  if (!device.codes.has(type)) { device.codes.set(type, new Set()); }
  device.codes.get(type).add(code);
}

/** Reads what `getevent -p`, `-lp`, `-i` and `-v` say of devices, line by line. */
class DeviceReader {
  device = null;
  part = "";
  type = null;

  constructor(recording) { this.recording = recording; }

  line(line) {
    const added = /^\s*add device \d+: (\/[!-~]+)\s*$/.exec(line);
    const typed = /^\s+[A-Z?]+\s*\(([0-9a-fA-F]{4})\):(.*)$/.exec(line);
    if (added) {
      this.recording.devices.delete(added[1]);
      this.device = this.recording.device(added[1]);
      this.part = "";
    } else if (!this.device || !/^[ \t]/.test(line)) {
      this.device = null;
    } else if (/^\s+name:\s+"/.test(line)) {
      this.device.name = line.replace(/^\s+name:\s+"|"\s*$/g, "");
    } else if (/^(events|input props):$/.test(line.trim())) {
      this.part = line.trim();
      this.type = null;
    } else if (this.part === "events:") {
      this.type = typed ? parseInt(typed[1], 16) : this.type;
      if (this.type !== null) { this.codes(typed ? typed[2] : line); }
    } else if (/INPUT_PROP_POINTER|^\s*0000\s*$/.test(line)) {
      this.device.isPad = true;
    }
  }

  codes(text) {
    const axis = /^\s*(\w+)\*?\s*:?\s*value (-?\d+), min (-?\d+), max (-?\d+)/.exec(text);
    for (const word of axis ? [axis[1]] : text.match(/[0-9a-fA-F]{4}|[A-Z][A-Z0-9_]*/g) || []) {
      const code = oneNumber(TABLE_OF_TYPE[this.type], word, 4);
      if (code !== null) {
        addCode(this.device, this.type, code);
        if (axis) { this.device.axes.set(code, [Number(axis[3]), Number(axis[4])]); }
      }
    }
  }
}

/** What `getevent -t` or `getevent -lt` printed. */
function readGetevent(lines, isWhole) {
  const recording = new Recording();
  const described = new DeviceReader(recording);
  const missing = new Map();
  lines.forEach((whole, k) => {
    const line = whole.replace(RATE, "");
    const plain = EVENT_LINE.exec(line) || OLD_LINE.exec(line);
    const labels = plain ? null : LABEL_LINE.exec(line);
    const read = labels && readLabels(labels, missing);
    if (plain) {
      recording.add(plain[1], plain[2], plain[3] || null, ...[4, 5, 6].map((at) => parseInt(plain[at], 16)));
    } else if (read) {
      if (read !== "missing") { recording.add(labels[1], labels[2], labels[3] || null, ...read); }
    } else if (/^[ \t]*\[/.test(whole) || /^\d+-\d+: /.test(whole)) {
      recording.cut(k + 1, whole, !isWhole(k));
    } else if (BARE_LINE.test(whole)) {
      throw new Refused(`line ${k + 1} is an event without a moment: record with getevent -t`);
    } else {
      described.line(whole);
    }
  });
  missing.forEach((count, word) => recording.said.push(`lines with ${word}, which stands for no one number, and are left out: ${count}`));
  return recording;
}

/** The type, code and value of a line with labels; null where it is none, "missing" where a label has no one number. */
function readLabels([, , , , ...words], missing) {
  const type = oneNumber("types", words[0], 4, 12);
  const code = oneNumber(TABLE_OF_TYPE[type], words[1], 4);
  const values = type === EV_ABS && code === ABS_MT_TOOL_TYPE ? "tools" : type === EV_KEY ? "key_values" : "none";
  const read = [type, code, oneNumber(values, words[2], 8)];
  const unknown = words.find((word, k) => read[k] === null && /^[A-Z][A-Z0-9_]*$/.test(word));
  if (unknown) { missing.set(unknown, (missing.get(unknown) || 0) + 1); }
  return unknown ? "missing" : read.includes(null) ? null : read;
}

/** What `evemu-record` wrote: values are decimal. */
function readEvemu(lines, isWhole) {
  const recording = new Recording();
  const path = unnamedPath(recording, "an evemu recording");
  const device = recording.device(path);
  lines.forEach((line, k) => {
    const event = /^E: *(\d{1,12})\.(\d{6}) +([0-9a-fA-F]{1,4}) +([0-9a-fA-F]{1,4}) +(-?\d+)\s*(?:#.*)?$/.exec(line);
    const axis = /^A: *([0-9a-fA-F]+) +(-?\d+) +(-?\d+) /.exec(line);
    if (event) {
      recording.add(event[1], event[2], path, parseInt(event[3], 16), parseInt(event[4], 16), Number(event[5]));
    } else if (line.startsWith("E:")) {
      recording.cut(k + 1, line, !isWhole(k));
    } else if (axis) {
      addCode(device, EV_ABS, parseInt(axis[1], 16));
      device.axes.set(parseInt(axis[1], 16), [Number(axis[2]), Number(axis[3])]);
    } else if (line.startsWith("N:")) {
      device.name = line.slice(2).trim();
    } else if (line.trim() && !/^[NIPBALS]:|^#/.test(line)) {
      recording.lost += 1;
    }
  });
  return recording;
}

/** What `evtest` printed: scan codes and raw values in hexadecimal digits, all others in decimal. */
function readEvtest(lines, isWhole) {
  const recording = new Recording();
  const path = unnamedPath(recording, "what evtest prints");
  const device = recording.device(path);
  let axis = null;
  lines.forEach((line, k) => {
    const event = /^Event: time (\d{1,12})\.(\d{6}), (?:type (\d+) \(.*?\), code (\d+) \(.*?\), value (-?[0-9a-fA-F]+)|[-+<>]+ (.+?) [-+<>]+)\s*$/.exec(line);
    const range = /^ {6}(Min|Max) +(-?\d+)\s*$/.exec(line);
    const code = /^ {4}Event code (\d+) \(/.exec(line);
    if (event) {
      recording.add(event[1], event[2], path, ...evtestEvent(event, k + 1));
    } else if (line.startsWith("Event:")) {
      recording.cut(k + 1, line, !isWhole(k));
    } else if (code) {
      axis = Number(code[1]);
    } else if (range && axis !== null) {
      device.axes.set(axis, Object.assign(device.axes.get(axis) || [0, 0], { [range[1] === "Min" ? 0 : 1]: Number(range[2]) }));
    } else if (line.startsWith("Input device name: ")) {
      device.name = line.slice(19).trim().replace(/^"|"$/g, "");
    } else if (line.trim() && recording.events.length > 0) {
      recording.lost += 1;
    }
  });
  return recording;
}

function evtestEvent([, , , type, code, value, sync], number) {
  if (sync) {
    const read = ["EV_SYN", "Report Sync"].includes(sync) ? 0 : numberOf("syn", sync, 0);
    if (read === null) { throw new Refused(`line ${number}: no event of EV_SYN is called ${sync}`); }
    return [EV_SYN, read, 0];
  }
  const isRaw = Number(type) === EV_MSC && (Number(code) === 3 || Number(code) === 4);
  if (!isRaw && !/^-?\d+$/.test(value)) { throw new Refused(`line ${number}: the value ${value} is no decimal number`); }
  return [Number(type), Number(code), parseInt(value, isRaw ? 16 : 10)];
}

/** What `libinput record` wrote: the kernel's events of each device, merged by their moments. */
function readLibinput(lines, isWhole) {
  const recording = new Recording();
  let device = null;
  let part = "";
  lines.forEach((line, k) => {
    const node = /^\s*- node: *(\/\S+)\s*$/.exec(line);
    const event = /^\s*- *\[ *(\d+) *, *(\d+) *, *(\d+) *, *(\d+) *, *(-?\d+) *\]\s*(?:#.*)?$/.exec(line);
    const numbers = /^\s*(\d+): *\[([-\d, ]*)\]/.exec(line);
    part = (/^([a-z]\w*):( \[[-\d, ]*\])?$/.exec(line.trim()) || [null, part])[1];
    if (node) {
      device = recording.device(node[1]);
      part = "";
    } else if (event && device) {
      recording.add(event[1], event[2].padStart(6, "0"), device.path, Number(event[3]), Number(event[4]), Number(event[5]));
    } else if (/^\s*- *\[/.test(line)) {
      recording.cut(k + 1, line, !isWhole(k));
    } else if (device && line.trim().startsWith("name: ")) {
      device.name = line.trim().slice(6).replace(/^["']|["']$/g, "");
    } else if (device && numbers && part === "absinfo") {
      device.axes.set(Number(numbers[1]), numbers[2].split(",").map(Number).slice(0, 2));
    } else if (device && ["events", "libinput"].includes(part) && !/^\s*(#.*|- evdev:|events:.*|libinput:)?\s*$/.test(line)) {
      recording.lost += 1;
    }
  });
  recording.events = recording.events.map((one, k) => [one, k])
    .sort(([a, i], [b, j]) => (a.moment === b.moment ? i - j : a.moment < b.moment ? -1 : 1)).map(([one]) => one);
  return recording;
}

function unnamedPath(recording, kind) {
  recording.said.push(`${kind} names no device; /dev/input/event0 is taken`);
  return "/dev/input/event0";
}

/** An event as `getevent -t` prints it. */
function eventLine({ moment, path, type, code, value }) {
  const hex = (number, width) => number.toString(16).padStart(width, "0");
  const seconds = String(moment / 1000000n).padStart(8);
  return `[${seconds}.${String(moment % 1000000n).padStart(6, "0")}] ${path ? path + ": " : ""}${hex(type, 4)} ${hex(code, 4)} ${hex(value, 8)}`;
}
