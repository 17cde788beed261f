/* ---- Sessions. Of one the page reads only how large its displays are: docs/SESSION.md. The program judges the whole. */

/** The lines of a TOML text, without comments and with texts emptied, so that only keys, numbers and brackets are left. */
function bareLines(text) {
  return text.replace(/"""[^]*?"""|'''[^]*?'''/g, '""').replace(/"(?:\\.|[^"\\\n])*"|'[^'\n]*'/g, '""').replace(/#[^\n]*/g, "").split("\n").map((line) => line.trim());
}

/** A table in one line, as `{ width = 1080, height = 2400 }`. */
function inlineTable(text) {
  return Object.fromEntries([...text.matchAll(/(\w+)\s*=\s*\+?([0-9_]+)/g)].map(([, key, digits]) => [key, Number(digits.replaceAll("_", ""))]));
}

/** The extents of the displays of a session as windows see them, turned by their rotation. A display whose extent is not read is left out. */
function displaysOf(text) {
  const tables = new Map();
  let extra = 0;
  let here = null;
  const tell = (number, told) => tables.set(number, { ...tables.get(number), ...told });
  for (const line of bareLines(text)) {
    const head = /^\[+\s*(\w+)\s*\]+$/.exec(line);
    const inline = /^(display|extra_display)\s*=\s*(.*)$/.exec(line);
    const dotted = /^display\s*\.\s*(\w+\s*=.*)$/.exec(line);
    if (head) {
      extra += head[1] === "extra_display" ? 1 : 0;
      here = head[1] === "display" ? 0 : head[1] === "extra_display" ? extra : null;
    } else if (inline && here === null) {
      (inline[2].match(/\{[^}]*\}/g) || []).forEach((table, k) => tell(inline[1] === "display" ? 0 : k + 1, inlineTable(table)));
    } else if (dotted && here === null) {
      tell(0, inlineTable(dotted[1]));
    } else if (here !== null) {
      tell(here, inlineTable(line));
    }
  }
  const known = [...tables].filter(([, { width, height }]) => width > 0 && height > 0);
  return new Map(known.map(([number, { width, height, rotation }]) =>
    [number, rotation === 90 || rotation === 270 ? { width: height, height: width } : { width, height }]));
}
