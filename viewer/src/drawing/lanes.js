/* ---- Lanes. */

const AXIS = 26;
const LANE_PAD = 8;
const LANE_LEAST = 46;
const HEIGHTS = { finger: 18, outside: 14, key: 18, focus: 13, event: 18 };

/** Where each drawn lane and each of its rows stands, from the top of all lanes. Below a row stands what came in its place, where two streams are compared.
    Answers the height of all. */
function layLanes(model) {
  let top = 0;
  for (const lane of model.shown) {
    let y = LANE_PAD + (lane.events.length > 0 ? HEIGHTS.event : 0);
    const lay = (row, less) => {
      Object.assign(row, { top: y, height: HEIGHTS[row.kind] - less });
      y += row.height;
    };
    for (const row of lane.rows) {
      lay(row, 0);
      const other = lane.partner && lane.partner.ofRow.get(row);
      if (other) { lay(other, 1); }
    }
    if (lane.partner) { lane.partner.extra.forEach((row) => lay(row, 1)); }
    Object.assign(lane, { top, height: Math.max(LANE_LEAST, y + LANE_PAD) });
    top += lane.height;
  }
  return top;
}

/** How wide the column of names would like to be: as the longest name, beside the words of its rows. */
function namesWidth(model) {
  if (model.namesWidth === undefined) {
    measuring.font = "600 14px " + FONT;
    model.namesWidth = Math.max(...model.lanes.map(({ section }) => measuring.measureText(section.name).width), 72) + 88;
  }
  return model.namesWidth;
}

/** The place of the lanes on a pen of this size: the width of the names, and the way from times to pixels and back. */
function frameOf(width, height, scroll) {
  const names = Math.round(Math.max(104, Math.min(namesWidth(state.model), width * 0.34, 360)));
  const { from, to } = state.view;
  const scale = (width - names) / (to - from);
  return { width, height, names, scroll, x: (t) => names + (t - from) * scale, t: (x) => from + (x - names) / scale };
}

/** The place of the lanes on their canvas. */
function lanesFrame() {
  const { clientWidth, clientHeight } = byId("lanes");
  return frameOf(clientWidth, clientHeight, byId("lanes-box").scrollTop);
}

function drawLanes() { paintLanes(startDrawing(byId("lanes")).context, lanesFrame()); }

/** Draws the lanes on a pen. */
function paintLanes(context, frame) {
  const { width, height } = frame;
  const lanes = state.model.shown;
  const marks = axisMarks(context, frame);
  drawStub(context, frame, height);
  marks.forEach(({ x }) => fillBox(context, theme().grid, x, AXIS, 1, height));
  const first = firstWhere(lanes.length, (k) => lanes[k].top + lanes[k].height > frame.scroll);
  for (let k = first; k < lanes.length && lanes[k].top - frame.scroll + AXIS < height; k += 1) {
    drawLane(context, frame, lanes[k]);
  }
  if (frame.x(state.now) >= frame.names) {
    fillBox(context, theme().now, Math.round(frame.x(state.now)), AXIS, 1, height - AXIS);
  }
  drawAxis(context, frame, marks);
  fillBox(context, theme().line, frame.names - 0.5, 0, 1, height);
  const none = state.model.lanes.length === 0 ? "The text has no windows." : "All windows are hidden; u shows them.";
  if (lanes.length === 0) { write(context, none, frame.names + 12, AXIS + 24, { font: "14px" }); }
}

/** The times of the axis that are seen, in steps of 1, 2 or 5 with zeros, so that their labels stand apart: as far as the widest of them asks. */
function axisMarks(context, frame) {
  context.font = "12px " + FONT;
  let room = 60;
  for (let tries = 0; ; tries += 1) {
    const marks = marksApart(frame, room);
    const wide = Math.max(0, ...marks.map(({ label }) => context.measureText(label).width)) + 14;
    if (wide <= room || tries > 3) { return marks; }
    room = wide;
  }
}

/** The times of the axis, at least so many pixels apart. None stands in the stub before the first event. */
function marksApart(frame, room) {
  const least = Math.max(frame.t(frame.names + room) - frame.t(frame.names), 1);
  const power = Math.pow(10, Math.floor(Math.log10(least)));
  const step = [1, 2, 5, 10].map((one) => one * power).find((one) => one >= least) || least;
  const marks = [];
  const from = state.model.first < 0 ? Math.max(state.view.from, 0) : state.view.from;
  for (let k = Math.ceil(from / step); k * step <= state.view.to && marks.length < 400; k += 1) {
    marks.push({ x: Math.round(frame.x(k * step)), label: millis(k * step || 0, step) });
  }
  return marks;
}

function drawAxis(context, frame, marks) {
  fillBox(context, theme().panel, 0, 0, frame.width, AXIS);
  fillBox(context, theme().line, 0, AXIS - 1, frame.width, 1);
  for (const { x, label } of marks) {
    fillBox(context, theme().soft, x, AXIS - 6, 1, 6);
    write(context, x + 4 + context.measureText(label).width < frame.width ? label : "", x + 4, 11);
  }
  drawStubLabel(context, frame);
  fillBox(context, theme().panel, 0, 0, frame.names, AXIS - 1);
  write(context, "window", 11, 11);
}

/** The stub before the first event: a band that is not to scale, with a jagged end. */
function drawStub(context, frame, height) {
  const right = frame.x(0);
  if (state.model.first === 0 || right <= frame.names) { return; }
  fillBox(context, theme().band, frame.names, AXIS, right - frame.names, height - AXIS);
  const jags = [];
  for (let y = AXIS, k = 0; y <= height; y += 6, k += 1) { jags.push([right - (k % 2 === 0 ? 1 : 5), y]); }
  drawPath(context, theme().line, 1, jags);
}

/** How long the stub stands for, in as many words as there is room for. */
function drawStubLabel(context, frame) {
  const right = frame.x(0) - 4;
  const room = right - Math.max(frame.names + 4, frame.x(state.model.first - state.model.pad));
  if (state.model.first === 0 || room < 20) { return; }
  const whole = spanOf(state.model.before);
  context.font = "12px " + FONT;
  const said = [whole + " before", whole, whole.split(" ").slice(0, 2).join(" ")].find((one) => context.measureText(one).width <= room);
  if (said) { write(context, said, right, 11, { align: "right" }); }
}

function drawLane(context, frame, lane) {
  const top = lane.top - frame.scroll + AXIS;
  context.save();
  context.beginPath();
  context.rect(frame.names, top, frame.width - frame.names, lane.height);
  context.clip();
  for (const row of lane.rows) {
    drawBars(context, frame, lane, row, row.kept, top);
    drawBars(context, frame, lane, row, row.canceled, top);
  }
  if (lane.partner) { drawPartner(context, frame, lane, top); }
  const words = [];
  lane.events.forEach((event) => drawEvent(context, frame, event, top, lane.height, words));
  state.faults.filter((fault) => fault.lane === lane).forEach((fault) => drawFault(context, frame, fault, top));
  if (state.selected && state.selected.lane === lane) { drawSelected(context, frame, state.selected, top); }
  context.restore();
  drawLaneName(context, frame, lane, top);
  fillBox(context, theme().line, 0, top + lane.height - 1, frame.width, 1);
}

/** The colour of a window at the edge of its lane. */
function drawBand(context, color, dash, top, height) {
  context.setLineDash(dash);
  drawPath(context, color, 4, [[2, top], [2, top + height]]);
  context.setLineDash([]);
}

function drawLaneName(context, frame, lane, top) {
  const isSelected = state.selected && state.selected.lane === lane;
  const isWide = frame.names >= 150;
  const room = frame.names - (isWide ? 78 : 38);
  const count = lane.section.messages.length;
  fillBox(context, isSelected ? theme().band : theme().panel, 0, top, frame.names, lane.height - 1);
  drawBand(context, colorOf(lane), dashOf(lane), top, lane.height - 1);
  write(context, lane.section.name, 11, top + 16, { color: theme().ink, font: "600 14px", room });
  write(context, isWide ? counted(count, "message") : count + " msg", 11, top + 33, { room });
  const devices = new Set(lane.rows.map(({ device }) => device).filter(Boolean));
  for (const row of lane.rows) {
    const finger = devices.size > 1 ? row.device + ":" + row.id : row.id;
    const label = { finger: "finger " + finger, outside: "outside", key: "keys", focus: "focus" }[row.kind];
    const shown = isWide ? label : row.kind === "finger" ? String(finger) : "";
    write(context, shown, frame.names - 8, top + row.top + row.height / 2, { align: "right" });
  }
}

