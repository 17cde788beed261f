/* ---- A session for a recording that has none: its devices, and one window over the panel. */

const MOST_DEVICES = 8;
const MOST_SLOTS = 16;
const MOST_PIXELS = 16384;

/** What the events of each device are, by its path: its codes, and the least and greatest value of each axis. */
function seenDevices(events) {
  const seen = new Map();
  for (const { path, type, code, value } of events) {
    if (!seen.has(path)) { seen.set(path, { path, codes: new Map(), ranges: new Map() }); }
    const device = seen.get(path);
    addCode(device, type, code);
    if (type === EV_ABS) {
      const [least, most] = device.ranges.get(code) || [value | 0, value | 0];
      device.ranges.set(code, [Math.min(least, value | 0), Math.max(most, value | 0)]);
    }
  }
  return [...seen.values()];
}

function hasSeen({ codes }, type, ...numbers) { return numbers.some((code) => codes.has(type) && codes.get(type).has(code)); }

/** Why a session can't have a device; null where it can. */
function whyNot(device, described) {
  if (hasSeen(device, EV_SYN, 2)) { return "speaks the kernel's multi-touch protocol A, of which the program reads nothing"; }
  if (described && described.isPad && hasSeen(device, EV_ABS, ABS_MT_TRACKING_ID)) { return "is a touch pad, which moves a mouse"; }
  if (hasSeen(device, EV_ABS, ABS_MT_TRACKING_ID) || isKeys(device)) { return null; }
  if (hasSeen(device, EV_ABS, ABS_MT_POSITION_X, ABS_MT_POSITION_Y)) { return "moves fingers that went down before the recording began"; }
  if (hasSeen(device, EV_ABS, 0, 1)) { return "is a single touch device, of which the program reads nothing"; }
  return device.codes.has(EV_REL) ? "is a mouse, which only the command hover reads" : "has no finger and no key";
}

function isTouch(device) { return hasSeen(device, EV_ABS, ABS_MT_TRACKING_ID); }

function isKeys({ codes }) { return [...(codes.get(EV_KEY) || [])].some((code) => !isButton(code)); }

/** The range of an axis: what the device says of itself, and else from 0 to the greatest value that came. */
function rangeOf(device, described, axis) {
  const told = described && described.axes.get(axis);
  if (told && told[0] < told[1]) { return { range: told, isTold: true }; }
  const [least, most] = device.ranges.get(axis) || [0, 1];
  return { range: [Math.min(least, 0), Math.max(most, 1)], isTold: false };
}

function tableOf(name, lines) { return [`[[${name}]]`, ...lines, ""]; }

function touchTable(device, described, said) {
  const slots = described && described.axes.has(ABS_MT_SLOT) ? described.axes.get(ABS_MT_SLOT)[1] : Math.max((device.ranges.get(ABS_MT_SLOT) || [0, 0])[1], 9);
  const x = rangeOf(device, described, ABS_MT_POSITION_X);
  const y = rangeOf(device, described, ABS_MT_POSITION_Y);
  said.push(`${device.path || "the device"} has positions to ${x.range[1]}, ${y.range[1]}, ` +
    (x.isTold && y.isTold ? "as the recording says of it" : "the greatest that came; the real panel may be larger"));
  return tableOf("device", [
    'kind = "touch"', `path = ${JSON.stringify(device.path || "/dev/input/event0")}`, `slots = ${Math.min(Math.max(slots + 1, 1), MOST_SLOTS)}`,
    `x = [${x.range.join(", ")}]`, `y = [${y.range.join(", ")}]`,
  ]);
}

function keysTable(device) {
  const known = [...device.codes.get(EV_KEY)].filter((code) => ANDROID_KEYS[code]).sort((a, b) => a - b);
  const layout = known.length === 0 ? [] : ['layout = """', ...known.map((code) => `key ${code} ${ANDROID_KEYS[code]}`), '"""'];
  return tableOf("device", ['kind = "keys"', `path = ${JSON.stringify(device.path || "/dev/input/event0")}`, ...layout]);
}

/** A session for the events of a recording and what it says of its devices: the text, and what is to be told of it. Null where no device fits. */
function makeSession(events, described) {
  const said = [];
  const fits = seenDevices(events).filter((device) => {
    const reason = whyNot(device, described.get(device.path));
    if (reason) { said.push(`${device.path || "the device"} ${reason}; it is left out`); }
    return !reason;
  });
  const devices = [...fits.filter(isTouch), ...fits.filter((device) => !isTouch(device))].slice(0, MOST_DEVICES);
  if (devices.length === 0) { return { text: null, said }; }
  const tables = devices.flatMap((device) => (isTouch(device) ? touchTable(device, described.get(device.path), said) : keysTable(device)));
  const panel = devices.find(isTouch);
  const extent = panel ? [ABS_MT_POSITION_X, ABS_MT_POSITION_Y].map((axis) => {
    const [least, most] = rangeOf(panel, described.get(panel.path), axis).range;
    return Math.min(most - least + 1, MOST_PIXELS);
  }) : [1080, 2400];
  const focus = devices.some((device) => !isTouch(device)) ? tableOf("step", ["at_us = 0", 'do = "focus"', 'channel = "main"']) : [];
  const text = [
    "# Made by the viewer for a recording without a session: one window over the whole panel.", "[display]", `width = ${extent[0]}`, `height = ${extent[1]}`, "",
    ...tables, ...tableOf("channel", ['name = "main"']),
    ...tableOf("step", ["at_us = 0", 'do = "windows"', `windows = [ { channel = "main", frame = [0, 0, ${extent.join(", ")}] } ]`]), ...focus,
  ].join("\n");
  said.unshift(`No session was dropped, so one was made: one window, main, over a panel of ${extent.join(" by ")}. Which window a touch would go to on the phone ` +
    "is only known with a session of its windows (tools/session makes one)");
  return { text, said };
}

/** The session that is made for a recording file. */
function sessionFor({ text, read }) {
  const recording = read || readGetevent([...eachLine(text)], () => false);
  return makeSession(recording.events, recording.devices);
}
