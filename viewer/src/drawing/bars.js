/* ---- The bars of a lane, and what stands on them. */

/** Draws the bars of a list that are seen. Where several begin on one pixel and are thin, the first stands for all. */
function drawBars(context, frame, lane, row, bars, top) {
  let k = firstWhere(bars.length, (at) => bars[at].to >= state.view.from);
  while (k < bars.length && bars[k].from <= state.view.to) {
    const left = Math.max(frame.x(bars[k].from), frame.names - 4);
    const right = Math.min(frame.x(bars[k].to), frame.width + 4);
    drawBar(context, frame, lane, row, bars[k], left, right, top + row.top);
    const next = frame.t(Math.floor(left) + 1);
    k = right - left < 1 ? Math.max(k + 1, firstWhere(bars.length, (at) => bars[at].from >= next)) : k + 1;
  }
}

function drawBar(context, frame, lane, row, bar, left, right, top) {
  const middle = top + row.height / 2;
  if (row.kind === "outside") {
    drawCircle(context, left, middle, 4, { line: colorOf(lane) });
    return;
  }
  const isThin = row.kind === "focus";
  const color = bar.canceled ? theme().red : colorOf(lane);
  const box = { left, middle, width: Math.max(right - left, 1), height: isThin ? 4 : row.height - 5 };
  const fill = isThin ? color : row.isPartner ? faint(color, 0.12) : bar.open ? hatch(context, color) : bar.canceled ? faint(color, 0.28) : color;
  if (box.width <= 4) {
    fillBox(context, bar.canceled ? color : fill, Math.round(left), middle - box.height / 2, Math.round(box.width), box.height);
    return;
  }
  context.beginPath();
  context.roundRect(left, middle - box.height / 2, box.width, box.height, 3);
  context.fillStyle = fill;
  context.fill();
  if ((bar.open || bar.canceled || row.isPartner) && !isThin) {
    Object.assign(context, { strokeStyle: color, lineWidth: 1.25 });
    context.stroke();
  }
  if (bar.canceled) { drawCross(context, color, right, middle); }
  if (bar.obscured || bar.partly) { drawCover(context, box, bar.obscured); }
  if (!isThin && box.width > 8) {
    const ink = bar.canceled || bar.open || row.isPartner ? color : theme().panel;
    drawTicks(context, frame, row, bar, box, faint(ink, 0.85));
    drawKeyName(context, row, bar, box, ink);
  }
}

/** A line over a bar whose messages have marks: whole where a window of another owner obscured a finger, and else dashed. */
function drawCover(context, { left, middle, width, height }, isWhole) {
  context.beginPath();
  context.setLineDash(isWhole ? [] : [3, 3]);
  context.moveTo(left, middle - height / 2 - 1);
  context.lineTo(left + width, middle - height / 2 - 1);
  Object.assign(context, { strokeStyle: theme().ink, lineWidth: 1.5 });
  context.stroke();
  context.setLineDash([]);
}

/** A tick for each message of a bar; where they stand too close, a line along the bar. */
function drawTicks(context, frame, row, bar, { left, middle, width, height }, color) {
  const { from, to } = state.view;
  const count = bar.last - bar.first + 1;
  const first = bar.first + firstWhere(count, (k) => row.times[bar.first + k] >= from);
  const behind = bar.first + firstWhere(count, (k) => row.times[bar.first + k] > to);
  if (behind - first > width / 4) {
    const begins = Math.max(left, frame.x(row.times[first])) + 1;
    const ends = Math.min(left + width, frame.x(row.times[behind - 1])) - 1;
    fillBox(context, color, begins, middle - 0.75, Math.max(ends - begins, 1), 1.5);
    return;
  }
  for (let k = first; k < behind; k += 1) {
    const x = Math.round(frame.x(row.times[k]));
    if (x > left + 2 && x < left + width - 2) { fillBox(context, color, x, middle - height / 2 + 3, 1, height - 6); }
  }
}

/** Names a key on its bar, as one row has several keys. */
function drawKeyName(context, row, bar, { left, middle, width, height }, color) {
  if (row.kind === "key" && width > 30) {
    const ground = bar.canceled || bar.open || row.isPartner ? theme().panel : colorOf(row.lane);
    fillBox(context, ground, left + 4, middle - height / 2 + 2, width - 8, height - 4);
    write(context, KEY_NAMES.get(bar.code) || "key " + bar.scan, left + 7, middle + 0.5, { color, font: "11px", room: width - 12 });
  }
}

/** What came in the place of a lane: outlines below its bars, and lines from each point that was wanted to the one that came. */
function drawPartner(context, frame, lane, top) {
  const { ofRow, extra } = lane.partner;
  for (const row of [...ofRow.values(), ...extra].filter(Boolean)) {
    drawBars(context, frame, lane, row, row.kept, top);
    drawBars(context, frame, lane, row, row.canceled, top);
  }
  drawPairs(context, frame, lane, top);
}

/** The row of a lane that a point stands on. */
function rowOfPoint(lane, { kind, device, action, index, pointers }) {
  if (kind !== "motion") { return lane.rows.find((row) => row.kind === kind); }
  return lane.rows.find((row) => (action === "OUTSIDE" ? row.kind === "outside" : row.device === device && row.id === pointers[index || 0].id));
}

/** Draws the pairs that are seen, unless they are so many that they would be a surface. */
function drawPairs(context, frame, lane, top) {
  const { pairs } = lane.partner;
  const begin = firstWhere(pairs.length, (k) => pairs[k][0].message.t >= state.view.from);
  const end = firstWhere(pairs.length, (k) => pairs[k][0].message.t > state.view.to);
  if (end - begin > frame.width / 4) { return; }
  for (const [{ message }, other] of pairs.slice(begin, end)) {
    const row = rowOfPoint(lane, message);
    if (row && lane.partner.ofRow.get(row)) {
      const y = top + row.top + row.height;
      const isWrong = !agree(message, other.message, state.tolerance.us, state.tolerance.pixels);
      drawPath(context, isWrong ? theme().red : theme().ink, isWrong ? 2 : 1.25, [[frame.x(message.t), y - 4], [frame.x(other.message.t), y + 4]]);
    }
  }
}
