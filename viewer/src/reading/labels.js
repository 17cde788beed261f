/* ---- The kernel's names of events, as `getevent -l` prints them. LABELS_TEXT is that of tools/evdev_names.py; viewer/make puts it in. */

/** For each table its numbers by name. */
const LABELS = (() => {
  const tables = {};
  let table = null;
  for (const word of LABELS_TEXT.split(" ")) {
    const [name, digits] = word.split("=");
    if (digits === undefined) {
      table = tables[name.slice(0, -1)] = new Map();
    } else {
      table.set(name, parseInt(digits, 16));
    }
  }
  return tables;
})();

const TABLE_OF_TYPE = {
  0x00: "syn", 0x01: "keys", 0x02: "relative", 0x03: "absolute", 0x04: "misc", 0x05: "switches",
  0x11: "leds", 0x12: "sounds", 0x14: "repeats", 0x15: "force", 0x17: "force_status",
};
const EV_SYN = 0;
const EV_KEY = 1;
const EV_REL = 2;
const EV_ABS = 3;
const EV_MSC = 4;
const ABS_MT_SLOT = 0x2f;
const ABS_MT_POSITION_X = 0x35;
const ABS_MT_POSITION_Y = 0x36;
const ABS_MT_TOOL_TYPE = 0x37;
const ABS_MT_TRACKING_ID = 0x39;

/** The one number that a label stands for, or null. `getevent -l` cuts a label to `width` characters, so several may begin alike. */
function numberOf(table, label, width) {
  const numbers = LABELS[table] || new Map();
  if (numbers.has(label)) { return numbers.get(label); }
  const found = label.length === width ? [...numbers].filter(([name]) => name.startsWith(label)).map(([, number]) => number) : [];
  return new Set(found).size === 1 ? found[0] : null;
}

/** The number of a word of `getevent -l`: so many hexadecimal digits, or a label. */
function oneNumber(table, word, digits, width = 20) {
  return new RegExp(`^[0-9a-fA-F]{${digits}}$`).test(word) ? parseInt(word, 16) : numberOf(table, word, width);
}

/** Whether a code of EV_KEY is a button of a mouse, pad, pen or screen, and no key. */
function isButton(code) { return (code >= 0x100 && code < 0x160) || (code >= 0x220 && code < 0x224) || (code >= 0x2c0 && code < 0x2e8); }
