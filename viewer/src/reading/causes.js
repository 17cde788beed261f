/* ---- Texts of causes: one line for each thing that decided where something went. The forms stand in docs/WHY.md. */

const CAUSES = [
  "windows{windows:frames}",
  "gone {channel:n} {lost:lost}",
  "down {device:n} {id:n} {x:i},{y:i} touched {touched:w} row {row:row} chosen {chosen:w} spies {spies:s} " +
    "pilfering {pilfering:s} given {given:s} mute {mute:s} outside {outside:s}{blocked:blocked}",
  "slip {device:n} {id:n} {x:i},{y:i} from {from:n} to {to:n}",
  "up {device:n} {id:n} from {from:s}",
  "palm {device:n} {id:n} from {from:s}",
  "reset {device:n} from {from:s}",
  "key {device:n} {scan:n} down target {target:c} given {given:c}",
  "key {device:n} {scan:n} up from {from:c}",
  "key {device:n} {scan:n} repeat {repeat:n} to {to:c}",
  "pilfer {channel:n} {device:n} {ids:s} from {from:s}",
  "pilfer {channel:n} {device:n} {refused:refused}",
  "timeout {channel:n} {seq:n} {lost:lost}",
  "responsive {channel:n}",
  "removed {channel:n} {lost:lost}",
  "removed {channel:n} {refused:refused}",
  "request {display:n} {channel:c}",
  "focus {display:n} {before:c} {after:c}",
  "target {before:c} {after:c}",
].map(formOf);

/** A cause from the words behind its moment, or null. */
function readCause(words) {
  for (const form of CAUSES) {
    const cause = words.startsWith(form.word) ? readForm(form, words) : null;
    if (cause) { return Object.assign(cause, { word: form.word }); }
  }
  return null;
}

/** A text of causes: its lines and its causes, whose moments do not fall. The first bad line is thrown. */
function readCauses(text) {
  const { lines, isWhole } = linesOf(text);
  const causes = [];
  let before = 0n;
  lines.forEach((line, index) => {
    const [digits] = line.split(" ", 1);
    const moment = new RegExp("^" + NUMBER + "$").test(digits) ? KINDS.moment[1](digits) : undefined;
    const cause = moment === undefined || moment < before || !isWhole(index) ? null : readCause(line.slice(digits.length + 1));
    if (!cause) { throw new BadLine(index + 1); }
    before = moment;
    causes.push(Object.assign(cause, { moment, index, line: index + 1, told: new Set() }));
  });
  return { lines, causes };
}

/** Whether a text is one of causes: its first line is a moment and one of their words. */
function looksLikeCauses(text) {
  const found = /^[0-9]+ ([a-z]+)(?: |\n|$)/.exec(text);
  return found !== null && CAUSES.some(({ word }) => word === found[1]);
}
