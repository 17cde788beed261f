/* ---- The screen: displays with the frames of the moment, or, without causes, each window by its own corner. */

const TRAIL = 500000;
const TRAIL_LENGTH = 240;
const DOT = 12;
let dotsDrawn = [];
let labelsDrawn = [];

/** The extent of a display by its windows, where no session tells it: the frame from its corner that most windows have, and of several the largest, since a
    wallpaper may be larger than the display. Null where no window begins at the corner. */
function extentByWindows(model, display) {
  const channels = new Map();
  for (const { channel, left, top, right, bottom, display: here } of model.snapshots.flatMap(({ windows }) => windows)) {
    if (here === display && left === 0 && top === 0 && right > 0 && bottom > 0) {
      const name = right + " " + bottom;
      channels.set(name, (channels.get(name) || new Set()).add(channel));
    }
  }
  const area = (name) => name.split(" ").reduce((product, side) => product * Number(side), 1);
  const [best] = [...channels].sort(([a, mine], [b, others]) => others.size - mine.size || area(b) - area(a));
  return best ? { width: Number(best[0].split(" ")[0]), height: Number(best[0].split(" ")[1]) } : null;
}

/** What is drawn side by side, with its extent: with causes displays, and else windows that have fingers, as far as these go. */
function makeSurfaces(model, displays) {
  const surfaces = new Map();
  const add = (key, title, order, x, y) => {
    const hull = surfaces.get(key) || { key, title, order, left: x, top: y, right: x + 1, bottom: y + 1 };
    surfaces.set(key, hull);
    hull.left = Math.min(hull.left, x);
    hull.top = Math.min(hull.top, y);
    hull.right = Math.max(hull.right, x);
    hull.bottom = Math.max(hull.bottom, y);
  };
  const addDisplay = (display, x, y) => add(display, `display ${display}` + (displays.has(display) ? "" : ", by its windows"), display, x, y);
  for (const display of new Set(model.snapshots.flatMap(({ windows }) => windows.map((one) => one.display)))) {
    const extent = displays.get(display) || extentByWindows(model, display);
    const frames = extent ? [{ left: 0, top: 0, right: extent.width, bottom: extent.height }]
      : model.snapshots.flatMap(({ windows }) => windows.filter((one) => one.display === display));
    frames.forEach(({ left, top, right, bottom }) => { addDisplay(display, left, top); addDisplay(display, right, bottom); });
  }
  model.alone.filter(({ display }) => !displays.has(display)).forEach(({ cause, display }) => addDisplay(display, cause.x, cause.y));
  for (const { section, number } of model.lanes) {
    for (const { pointers, action, origin } of section.messages) {
      if (pointers && action !== "OUTSIDE" && origin && origin.display === null) {
        [OWN_CORNER, ...pointers].forEach(({ x, y }) => add("lane " + number, section.name, number, x, y));
      } else if (pointers && action !== "OUTSIDE" && origin && !displays.has(origin.display)) {
        pointers.forEach(({ x, y }) => addDisplay(origin.display, x + origin.x, y + origin.y));
      }
    }
  }
  return [...surfaces.values()].sort((a, b) => a.order - b.order);
}

/** Where surfaces stand on the canvas: side by side in as many columns as make them greatest, all by one scale. */
function laySurfaces(surfaces, width, height) {
  const title = 22;
  const wide = Math.max(...surfaces.map(({ left, right }) => right - left));
  const high = Math.max(...surfaces.map(({ top, bottom }) => bottom - top));
  const layouts = surfaces.map((surface, k) => {
    const rows = Math.ceil(surfaces.length / (k + 1));
    const scale = Math.min((width / (k + 1) - 28) / wide, (height / rows - 16 - title) / high);
    return { columns: k + 1, rows, scale };
  });
  const { columns, rows, scale } = layouts.reduce((best, one) => (one.scale > best.scale ? one : best));
  return surfaces.map((surface, k) => {
    const boxWidth = (surface.right - surface.left) * scale;
    const x = (width / columns) * ((k % columns) + 0.5) - boxWidth / 2;
    const y = (height / rows) * Math.floor(k / columns) + title;
    return {
      key: surface.key, title: surface.title, room: (width / columns + boxWidth) / 2 - 6, x, y, width: boxWidth, height: (surface.bottom - surface.top) * scale, scale,
      at: (point) => [x + (point.x - surface.left) * scale, y + (point.y - surface.top) * scale],
    };
  });
}

/** The fingers of the moment: of each window those that are down, or ended a short while ago. */
function fingersNow(model) {
  const found = [];
  for (const lane of model.shown) {
    for (const row of lane.rows.filter(({ kind }) => kind === "finger")) {
      const bar = row.bars[firstWhere(row.bars.length, (k) => row.bars[k].from > state.now) - 1];
      if (bar && state.now - bar.to < TRAIL) {
        const mark = firstWhere(row.times.length, (k) => row.times[k] > state.now) - 1;
        found.push({ lane, row, bar, isDown: state.now < bar.to, mark: Math.min(mark, bar.last) });
      }
    }
  }
  return found;
}

/** The place of a finger at one of its messages, on its surface; null where that is not known. */
function pointAt({ lane, row }, mark) {
  const { pointers, origin } = lane.section.messages[row.marks[mark]];
  const { x, y } = pointers.find(({ id }) => id === row.id);
  return origin && { key: origin.display === null ? "lane " + lane.number : origin.display, x: x + origin.x, y: y + origin.y };
}

function drawScreen() {
  const { context, width, height } = startDrawing(byId("screen"));
  paintScreen(context, width, height);
}

/** Draws the moment on a pen of this size. */
function paintScreen(context, width, height) {
  const model = state.model;
  dotsDrawn = [];
  labelsDrawn = [];
  if (model.surfaces.length === 0) {
    write(context, "The text has no fingers.", 4, 20, { font: "14px" });
    return;
  }
  const fingers = fingersNow(model);
  for (const box of laySurfaces(model.surfaces, width, height)) {
    const frames = drawSurface(context, model, box);
    const here = fingers.map((finger) => ({ ...finger, point: pointAt(finger, finger.mark) })).filter(({ point }) => point && point.key === box.key);
    here.forEach((finger) => drawTrail(context, box, finger));
    here.filter(({ isDown }) => !isDown).forEach((finger) => drawEnded(context, box, finger));
    const alone = model.alone.filter(({ display, from, to }) => display === box.key && from <= state.now && state.now < to);
    alone.forEach(({ cause }) => drawAlone(context, box, cause));
    here.forEach((finger) => drawPartnerDot(context, box, finger));
    drawDots(context, box, here.filter(({ isDown }) => isDown));
    const dots = [...dotsDrawn, ...alone.map(({ cause }) => ({ x: box.at(cause)[0], y: box.at(cause)[1] }))];
    drawLabels(context, box, frames, dots);
  }
}

/** Cuts what is drawn to a box. */
function within(context, { x, y, width, height }, draw) {
  context.save();
  context.beginPath();
  context.rect(x, y, width, height);
  context.clip();
  draw();
  context.restore();
}

/** A display or a window's own places, and on a display the frames of the moment, the front one last. Answers them, the front one first. */
function drawSurface(context, model, box) {
  fillBox(context, theme().band, box.x, box.y, box.width, box.height);
  Object.assign(context, { strokeStyle: theme().line, lineWidth: 1 });
  context.strokeRect(box.x, box.y, box.width, box.height);
  write(context, box.title, box.x, box.y - 10, { font: "13px", room: box.room });
  const shown = model.snapshots[firstWhere(model.snapshots.length, (k) => model.snapshots[k].t > state.now) - 1];
  const frames = shown ? shown.windows.filter((one) => one.display === box.key && !isHidden(model, one.channel)).map((frame) => placedFrame(model, box, frame)) : [];
  within(context, box, () => [...frames].reverse().forEach((frame) => drawFrame(context, frame)));
  return frames;
}

function isHidden(model, channel) { return model.lanes.some((lane) => lane.section.id === channel && model.hidden.has(lane.number)); }

/** Where the frame of a window stands on the canvas, in which colour. */
function placedFrame(model, box, { channel, left, top, right, bottom }) {
  const lane = model.lanes.find(({ section }) => section.id === channel);
  const [x, y] = box.at({ x: left, y: top });
  return {
    x, y, width: (right - left) * box.scale, height: (bottom - top) * box.scale,
    color: lane ? colorOf(lane) : theme().soft, dash: channel === WALL ? [2, 4] : lane ? dashOf(lane) : [],
    name: channel === WALL ? "nobody" : model.names.get(channel) || "channel " + channel,
  };
}

function drawFrame(context, { x, y, width, height, color, dash }) {
  fillBox(context, faint(color, 0.05), x, y, width, height);
  Object.assign(context, { strokeStyle: color, lineWidth: 1.5 });
  context.setLineDash(dash);
  context.strokeRect(x + 1.5, y + 1.5, Math.max(width - 3, 1), Math.max(height - 3, 1));
  context.setLineDash([]);
}

/** The way that a finger came, fainter the longer ago. */
function drawTrail(context, box, finger) {
  const { row, bar } = finger;
  context.lineCap = "round";
  let after = finger.point;
  for (let mark = finger.mark - 1; mark >= Math.max(bar.first, finger.mark - TRAIL_LENGTH); mark -= 1) {
    const age = (state.now - row.times[mark]) / TRAIL;
    const point = pointAt(finger, mark);
    if (age > 1 || !point || point.key !== box.key) { break; }
    drawPath(context, faint(colorOf(finger.lane), Math.max(0.1, 0.8 * (1 - age))), 3, [box.at(after), box.at(point)]);
    after = point;
  }
  context.lineCap = "butt";
}

/** The fingers that are down. One that several windows have is one dot in the colours of all of them. */
function drawDots(context, box, fingers) {
  const groups = new Map();
  for (const finger of fingers) {
    const name = finger.row.device + ":" + finger.row.id;
    groups.set(name, [...(groups.get(name) || []), finger]);
  }
  const several = new Set(fingers.map(({ row }) => row.device)).size > 1;
  for (const [name, group] of groups) {
    const [x, y] = box.at(group[0].point);
    const turn = (part) => -Math.PI / 2 + (2 * Math.PI * part) / group.length;
    group.forEach((finger, k) => {
      context.fillStyle = colorOf(finger.lane);
      context.beginPath();
      context.moveTo(x, y);
      context.arc(x, y, DOT, turn(k), turn(k + 1));
      context.fill();
    });
    drawCircle(context, x, y, DOT, { line: theme().panel });
    write(context, several ? name : String(group[0].row.id), x, y + 0.5, { color: theme().panel, font: "600 12px", align: "center" });
    dotsDrawn.push({ x, y, fingers: group });
  }
}

/** A finger that went up or was cancelled a short while ago. */
function drawEnded(context, box, finger) {
  const [x, y] = box.at(finger.point);
  const color = finger.bar.canceled ? theme().red : colorOf(finger.lane);
  const line = faint(color, Math.max(0.15, 1 - (state.now - finger.bar.to) / TRAIL));
  drawCircle(context, x, y, DOT - 1, { line, width: 2 });
  if (finger.bar.canceled) { drawCross(context, line, x, y); }
  dotsDrawn.push({ x, y, fingers: [finger] });
}

/** A finger that no window got, where it went down. */
function drawAlone(context, box, cause) {
  const [x, y] = box.at(cause);
  context.setLineDash([3, 3]);
  drawCircle(context, x, y, DOT - 1, { line: theme().soft });
  context.setLineDash([]);
  write(context, String(cause.id), x, y + 0.5, { font: "600 12px", align: "center" });
}

/** The finger at a place of the screen; a second click on a dot of several windows goes on to the next of them. */
function hitScreen(x, y) {
  const dot = [...dotsDrawn].reverse().find((one) => Math.hypot(one.x - x, one.y - y) <= DOT + 3);
  if (!dot) { return null; }
  const before = dot.fingers.findIndex(({ lane }) => state.selected && state.selected.lane === lane);
  const { lane, row, mark } = dot.fingers[(before + 1) % dot.fingers.length];
  return { lane, row, at: row.marks[mark], event: null };
}

/** Where the finger was at this moment in the stream that came: a ring of its own, and a line to where it was wanted. */
function drawPartnerDot(context, box, { lane, row, point, isDown }) {
  const other = lane.partner && lane.partner.ofRow.get(row);
  const mark = other ? firstWhere(other.times.length, (k) => other.times[k] > state.now) - 1 : -1;
  const bar = mark >= 0 ? other.bars.find(({ first, last }) => first <= mark && mark <= last) : null;
  if (!bar || !isDown || state.now > bar.to) { return; }
  const { pointers } = lane.partner.section.messages[other.marks[mark]];
  const { x, y } = pointers.find(({ id }) => id === row.id);
  const { pointers: wanted } = lane.section.messages[row.marks[firstWhere(row.times.length, (k) => row.times[k] > state.now) - 1]];
  const own = wanted.find(({ id }) => id === row.id);
  const [left, top] = box.at({ x: point.x + x - own.x, y: point.y + y - own.y });
  drawPath(context, theme().ink, 1.5, [[left, top], box.at(point)]);
  context.setLineDash([4, 3]);
  drawCircle(context, left, top, DOT + 3, { line: theme().ink, width: 2 });
  context.setLineDash([]);
}
