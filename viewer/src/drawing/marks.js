/* ---- Marks of a lane: timeouts, removals, faults, and what is selected; and what stands at a place of the canvas. */

/** A timeout, a removal, or that a window is responsive again. */
function drawEvent(context, frame, event, top, height, words) {
  const x = frame.x(event.t);
  const y = top + LANE_PAD + HEIGHTS.event / 2 - 2;
  const color = event.what === "timeout" ? theme().red : theme().ink;
  const shapes = {
    timeout: [[x, y - 5.5], [x + 5.5, y], [x, y + 5.5], [x - 5.5, y], [x, y - 5.5]],
    removed: [[x - 4.5, y - 4.5], [x + 4.5, y - 4.5], [x + 4.5, y + 4.5], [x - 4.5, y + 4.5], [x - 4.5, y - 4.5]],
  };
  fillBox(context, faint(color, 0.55), Math.round(x), top, 1, height);
  drawCircle(context, x, y, 4, { fill: theme().panel, line: shapes[event.what] ? theme().panel : color });
  drawPath(context, color, 1.75, shapes[event.what] || []);
  const said = event.what === "responsive" ? "responsive again" : event.what;
  writeBeside(context, frame, said, x, y, color, words);
}

/** A word beside a mark, on the side where there is room: in the frame, and beside the words of the lane that are there. */
function writeBeside(context, frame, said, x, y, color, words) {
  context.font = "12px " + FONT;
  const width = context.measureText(said).width;
  const left = [x + 10, x - 10 - width].find((one) => one >= frame.names && one + width <= frame.width - 4 &&
    !words.some((word) => one < word.right + 6 && word.left - 6 < one + width));
  if (left !== undefined) {
    words.push({ left, right: left + width });
    write(context, said, left, y, { color });
  }
}

/** Where a rule breaks, or two streams differ: a flag at the message, on the row of its finger, with its word. */
function drawFault(context, frame, { t, row, word }, top) {
  const x = frame.x(t);
  const y = top + (row ? row.top : LANE_PAD);
  const height = row ? row.height : HEIGHTS.event;
  const color = theme().red;
  drawPath(context, color, 2, [[x, y - 2], [x, y + height + 2]]);
  context.font = "600 12px " + FONT;
  const width = context.measureText(word).width + 10;
  const left = x + width > frame.width - 4 ? x - width : x;
  fillBox(context, color, left, y - 3, width, 15);
  write(context, word, left + 5, y + 5, { color: theme().panel, font: "600 12px" });
}

/** The message or the mark that is selected. */
function drawSelected(context, frame, { lane, row, at, event }, top) {
  const x = Math.round(frame.x(event ? event.t : lane.section.messages[at].t)) + 0.5;
  if (!row) {
    context.strokeStyle = theme().ink;
    context.strokeRect(x - 8, top + LANE_PAD - 2, 16, HEIGHTS.event);
    return;
  }
  const y = top + row.top;
  drawPath(context, theme().ink, 2, [[x, y], [x, y + row.height]]);
  context.fillStyle = theme().ink;
  context.beginPath();
  [[x, y + 1], [x - 5, y - 6], [x + 5, y - 6]].forEach((point) => context.lineTo(...point));
  context.fill();
}

/** What stands at a place of the canvas: a lane, and of it a row with a message, or a mark. */
function hitLanes(x, y) {
  const frame = lanesFrame();
  const down = y - AXIS + frame.scroll;
  const lane = y < AXIS || x < frame.names ? undefined : state.model.shown.find(({ top, height }) => down >= top && down < top + height);
  if (!lane) { return null; }
  const inLane = down - lane.top;
  const event = lane.events.find(({ t }) => Math.abs(frame.x(t) - x) <= 8);
  if (event && inLane < LANE_PAD + HEIGHTS.event) { return { lane, event, row: null, at: null }; }
  const row = lane.rows.find(({ top, height }) => inLane >= top && inLane < top + height);
  return row ? hitRow(frame, lane, row, x) : null;
}

/** The message of a row that is nearest to a place: in the bar there, or within a few pixels. */
function hitRow(frame, lane, row, x) {
  const t = frame.t(x);
  const behind = firstWhere(row.bars.length, (k) => row.bars[k].from > t);
  const bar = behind > 0 && row.bars[behind - 1].to >= t ? row.bars[behind - 1] : { first: 0, last: row.marks.length - 1 };
  const k = nearest(bar.first, bar.last, t, (at) => row.times[at]);
  return bar.to !== undefined || Math.abs(frame.x(row.times[k]) - x) <= 8 ? { lane, row, at: row.marks[k], event: null } : null;
}

/** The place from `first` to `last` whose time is nearest, where times do not fall. */
function nearest(first, last, t, timeAt) {
  const k = first + firstWhere(last - first + 1, (step) => timeAt(first + step) >= t);
  return k > first && (k > last || t - timeAt(k - 1) <= timeAt(k) - t) ? k - 1 : k;
}
