/* ---- What the page shows at the moment, and how it draws. */

const state = {
  stream: null, causes: null, streamName: "", causesName: "", verdict: "",
  model: null, view: { from: 0, to: 1 }, now: 0, playing: false, selected: null,
  displays: new Map(), other: null, otherName: "", tolerance: { us: 0, pixels: 0 }, faults: [],
};

/* Each has a contrast of at least 4.5 with its ground, and any two of them, and the red, are told apart by eyes that lack one kind of cone. */
const COLORS = {
  light: ["#0000cc", "#337766", "#773388", "#661100", "#8800ff", "#113355"],
  dark: ["#66bbee", "#ddcc00", "#cc55ee", "#00aa00", "#cceeff", "#11ff99"],
};
const NAMED_COLORS = ["panel", "ink", "soft", "line", "grid", "band", "red", "now"];
const FONT = "system-ui, 'Segoe UI', 'Liberation Sans', sans-serif";

const byId = (id) => document.getElementById(id);
const darkness = matchMedia("(prefers-color-scheme: dark)");
let themeKept = null;
/** A pen that measures texts alone. */
const measuring = document.createElement("canvas").getContext("2d");

/** The colours of the page, for the canvases. */
function theme() {
  if (!themeKept) {
    const style = getComputedStyle(document.documentElement);
    themeKept = { windows: darkness.matches ? COLORS.dark : COLORS.light, hatches: new Map() };
    NAMED_COLORS.forEach((name) => { themeKept[name] = style.getPropertyValue("--" + name).trim(); });
  }
  return themeKept;
}

function colorOf(lane) { return theme().windows[lane.number % theme().windows.length]; }

/** Windows behind the last colour begin again with the first, and their edges are dashed. */
function dashOf(lane) { return Math.floor(lane.number / theme().windows.length) % 2 === 0 ? [] : [6, 4]; }

/** A colour that lets some of what is behind it through. */
function faint(color, alpha) { return color + Math.round(alpha * 255).toString(16).padStart(2, "0"); }

/** A pattern of slanted lines, for what is still down at the end. */
function hatch(context, color) {
  if (context.hatch) { return context.hatch(color); }
  const kept = theme().hatches;
  if (!kept.has(color)) {
    const tile = document.createElement("canvas");
    tile.width = tile.height = 8;
    const pen = tile.getContext("2d");
    fillBox(pen, faint(color, 0.18), 0, 0, 8, 8);
    [-8, 0, 8].forEach((x) => drawPath(pen, color, 2, [[x - 1, 9], [x + 9, -1]]));
    kept.set(color, context.createPattern(tile, "repeat"));
  }
  return kept.get(color);
}

function fillBox(context, color, x, y, width, height) {
  context.fillStyle = color;
  context.fillRect(x, y, width, height);
}

/** Draws lines from point to point. */
function drawPath(context, color, width, points) {
  context.strokeStyle = color;
  context.lineWidth = width;
  context.beginPath();
  points.forEach(([x, y]) => context.lineTo(x, y));
  context.stroke();
}

function drawCircle(context, x, y, radius, { fill, line, width = 1.5 }) {
  context.beginPath();
  context.arc(x, y, radius, 0, 2 * Math.PI);
  Object.assign(context, { fillStyle: fill, strokeStyle: line, lineWidth: width });
  if (fill) { context.fill(); }
  if (line) { context.stroke(); }
}

function drawCross(context, color, x, y) {
  drawPath(context, color, 1.75, [[x - 3.5, y - 3.5], [x + 3.5, y + 3.5]]);
  drawPath(context, color, 1.75, [[x + 3.5, y - 3.5], [x - 3.5, y + 3.5]]);
}

/** A text as it is shown in its room: where it is too wide, cut in front with three dots, since the names of windows differ at their ends. */
function cutFront(context, text, room) {
  const isWide = (shown) => context.measureText(shown).width > room;
  if (!isWide(text)) { return text; }
  const cut = firstWhere(text.length, (k) => !isWide("…" + text.slice(k)));
  return cut < text.length ? "…" + text.slice(cut) : "";
}

/** Writes a text, cut where it is wider than its room. */
function write(context, text, x, y, { color = theme().soft, font = "12px", align = "left", room = Infinity } = {}) {
  Object.assign(context, { font: font + " " + FONT, fillStyle: color, textAlign: align });
  context.fillText(room === Infinity ? text : cutFront(context, text, room), x, y);
}

/** Fits a canvas to the size that the page gives it, and clears it. */
function startDrawing(canvas) {
  const scale = window.devicePixelRatio || 1;
  const { clientWidth: width, clientHeight: height } = canvas;
  if (canvas.width !== Math.round(width * scale) || canvas.height !== Math.round(height * scale)) {
    canvas.width = Math.round(width * scale);
    canvas.height = Math.round(height * scale);
  }
  const context = canvas.getContext("2d");
  context.setTransform(scale, 0, 0, scale, 0, 0);
  context.textBaseline = "middle";
  fillBox(context, theme().panel, 0, 0, width, height);
  return { context, width, height };
}

/** Draws all once at the next frame, however often it is asked for. */
function redraw() { redraw.asked = redraw.asked || requestAnimationFrame(draw); }

function draw() {
  redraw.asked = 0;
  if (state.model) {
    drawLanes();
    drawScreen();
    showMoment();
    if (!state.playing) { sayScreen(); }
    keepPlace();
  }
}

/** A time in milliseconds, with as many places as a step needs. */
function millis(micros, step) {
  const places = step >= 1000 ? 0 : step >= 100 ? 1 : step >= 10 ? 2 : 3;
  return (micros / 1000).toLocaleString("en", { minimumFractionDigits: places, maximumFractionDigits: places }) + " ms";
}

/** A time in milliseconds without zeros at its end. */
function shortMillis(micros) { return millis(micros, 1).replace(/(\.\d*?)0+ /, "$1 ").replace(/\. /, " "); }

/** So many of something. */
function counted(count, word) { return count.toLocaleString("en") + " " + word + (count === 1 ? "" : "s"); }

/** The exact distance of a moment from the first event of a device. */
function exactMillis(moment) {
  const micros = moment - state.model.zero;
  const size = micros < 0n ? -micros : micros;
  const part = (size % 1000n).toString().padStart(3, "0").replace(/0+$/, "");
  return (size / 1000n).toLocaleString("en") + (part ? "." + part : "") + (micros < 0n ? " ms before the first event" : " ms");
}

/** A span of time in its two greatest units, as `2 d 3 h`. */
function spanOf(micros) {
  const millis = Number(micros) / 1000;
  const units = [[86400000, "d"], [3600000, "h"], [60000, "min"], [1000, "s"], [1, "ms"]];
  const k = units.findIndex(([size]) => millis >= size);
  if (k < 0) { return millis + " ms"; }
  const [size, name] = units[k];
  const [small, smallName] = units[Math.min(k + 1, units.length - 1)];
  const rest = Math.floor((millis % size) / small);
  return `${Math.floor(millis / size).toLocaleString("en")} ${name}` + (small < size && rest > 0 ? ` ${rest} ${smallName}` : "");
}
