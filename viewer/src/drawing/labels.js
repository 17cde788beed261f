/* ---- The names of windows on the screen: each on a plate of its own, at the place of its frame where it hides no finger and no other name. */

const LABEL_HEIGHT = 17;
const LABEL_STEP = 4;

function overlaps(a, b) { return a.x < b.x + b.width && b.x < a.x + a.width && a.y < b.y + b.height && b.y < a.y + a.height; }

/** The part of a frame that is on its surface. */
function seenPart(box, frame) {
  const x = Math.max(frame.x, box.x);
  const y = Math.max(frame.y, box.y);
  return { x, y, width: Math.min(frame.x + frame.width, box.x + box.width) - x, height: Math.min(frame.y + frame.height, box.y + box.height) - y };
}

/** Where a label of this width may stand in a frame: down its left edge, then down its right one, then down its middle. */
function labelPlaces({ x, y, width, height }, wide) {
  const count = Math.max(0, Math.min(200, Math.floor((height - LABEL_HEIGHT) / LABEL_STEP)));
  const tops = [...Array.from({ length: count }, (_, line) => y + 1 + line * LABEL_STEP), y + Math.max(1, height - LABEL_HEIGHT - 1)];
  return [x + 4, x + width - wide - 4, x + (width - wide) / 2].flatMap((left) => tops.map((top) => ({ x: left, y: top, width: wide, height: LABEL_HEIGHT - 1 })));
}

/** Writes the names of the windows of a surface: those with the least room first. Where every place of one is taken, it stands where the least is hidden. */
function drawLabels(context, box, frames, dots) {
  const seen = frames.map((frame) => ({ ...frame, ...seenPart(box, frame) })).filter(({ width, height }) => width > 0 && height > 0);
  seen.sort((a, b) => a.width * a.height - b.width * b.height).forEach((frame) => drawLabel(context, box, frame, dots));
}

function drawLabel(context, box, frame, dots) {
  context.font = "600 12px " + FONT;
  const text = cutFront(context, frame.name, Math.max(frame.width, Math.min(box.width, 90)) - 14);
  const fingers = dots.map(({ x, y }) => ({ x: x - DOT - 2, y: y - DOT - 2, width: 2 * DOT + 4, height: 2 * DOT + 4 }));
  const taken = [...labelsDrawn, ...fingers];
  const places = labelPlaces(frame, context.measureText(text).width + 8);
  const hides = (place) => taken.filter((one) => overlaps(one, place)).length;
  const place = places.find((one) => hides(one) === 0) || places.reduce((best, one) => (hides(one) < hides(best) ? one : best));
  const left = Math.max(box.x + 2, Math.min(place.x, box.x + box.width - place.width - 2));
  labelsDrawn.push({ ...place, x: left, name: frame.name });
  fillBox(context, faint(theme().panel, 0.9), left, place.y, place.width, place.height);
  write(context, text, left + 4, place.y + 8.5, { color: frame.color, font: "600 12px" });
}
