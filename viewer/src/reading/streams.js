/* ---- Stream texts, as docs/STREAMS.md tells them. */

const ORDER = formOf("order {count:u64}");
const ORDER_LINES = ["r", "p", "k", "s {lane:device}", "g {channel:u32}", "f {channel:u32} {seq:u64}"].map(formOf);
const CHANNEL = formOf("channel {id:channel} {name:name}");
const END = formOf("end {id:channel} sent {sent:u64} received {received:u64} finished {finished:u64}");
const NAMING = formOf("anr {moment:moment} {id:channel} {seq:u64}");
const MESSAGES = {
  motion: formOf("{seq:u64} {moment:moment} motion {device:device} {action:action}{canceled:canceled}{obscured:obscured}{partly:partly}{pointers:pointers}"),
  key: formOf("{seq:u64} {moment:moment} key {device:device} {scan:u16} {code:u16} {meta:u32} {way:way} {repeat:u32}"),
  focus: formOf("{seq:u64} {moment:moment} focus {gained:bit}"),
};

/** The message of a line, or null: the one with this number in its section. */
function readMessage(line, seq) {
  const kind = line.split(" ", 3)[2];
  const message = Object.hasOwn(MESSAGES, kind) ? readForm(MESSAGES[kind], line) : null;
  if (!message || message.seq !== String(seq)) { return null; }
  if (kind === "motion") {
    const [action, index] = message.action.split(":");
    Object.assign(message, { action, index: Number(index || 0) });
  } else if (kind === "key") {
    Object.assign(message, { down: message.way === "DOWN", canceled: message.way === "UP canceled" });
  }
  return kind === "motion" && message.index >= message.pointers.length ? null : Object.assign(message, { kind, seq });
}

/** Passes over an order in front of the streams: the number of lines that it has. */
function passOrder(lines, isWhole) {
  const order = lines.length > 0 && isWhole(0) ? readForm(ORDER, lines[0]) : null;
  const count = order ? Number(order.count) : 0;
  for (let k = 1; k <= count; k += 1) {
    if (!isWhole(k) || !ORDER_LINES.some((form) => readForm(form, lines[k]))) { throw new BadLine(k + 1); }
  }
  return order ? count + 1 : 0;
}

/** Takes the next line of a stream text into it: false where the line may not stand there. */
function takeLine(stream, line, number) {
  const section = stream.open;
  if (section && line.startsWith("end ")) {
    const end = readForm(END, line);
    section.endLine = number;
    stream.open = null;
    return end !== null && end.id === section.id && end.sent === String(section.messages.length);
  }
  if (section) {
    const message = readMessage(line, section.messages.length + 1);
    section.messages.push(Object.assign(message || {}, { line: number }));
    return message !== null;
  }
  const begun = stream.namings.length === 0 ? readForm(CHANNEL, line) : null;
  if (begun) {
    stream.open = Object.assign(begun, { messages: [], line: number });
    stream.sections.push(stream.open);
    return true;
  }
  const naming = readForm(NAMING, line);
  stream.namings.push(Object.assign(naming || {}, { line: number }));
  return naming !== null;
}

/** A stream text: its lines, its sections with their messages, and its namings. The first bad line is thrown. */
function readStream(text) {
  const { lines, isWhole } = linesOf(text);
  const stream = { lines, sections: [], namings: [], open: null };
  for (let k = passOrder(lines, isWhole); k < lines.length; k += 1) {
    if (!isWhole(k) || !takeLine(stream, lines[k], k + 1)) { throw new BadLine(k + 1); }
  }
  if (stream.open) { throw new BadLine(lines.length + 1); }
  return stream;
}
