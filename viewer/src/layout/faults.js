/* ---- Faults: where judge says that a rule breaks, and where two streams differ first. A fault stands at a message of a lane, on the row of its finger. */

const FAULT_WORDS = {
  AlreadyDown: "it is down already", OnePointer: "it lists more than one finger", NothingDown: "no finger is down", LastPointer: "only one finger is down",
  OtherPointers: "it lists other fingers than those that are down", MorePointers: "several fingers are down", Flags: "only a POINTER_UP is canceled, and an OUTSIDE has no mark",
  RepeatOfNothing: "the key is up, so nothing is repeated", RepeatOutOfTurn: "it is not the next repeat", KeyNotDown: "the key is up", RepeatOnUp: "an UP has no repeat",
  FocusTwice: "the window has, or has not, the focus already", StillDown: "it is down at the end of the stream",
};

/** A fault at a message. */
function faultAt(kind, lane, at, word, said) {
  const message = lane.section.messages[at];
  const row = rowOfPoint(lane, message) || lane.rows.find(({ marks }) => marks.includes(at)) || null;
  return { kind, lane, at, row, t: message.t, word, said };
}

/** The place of the message of a line: its lane and its number there, or null. */
function placeOfLine(model, line) {
  for (const lane of model.lanes) {
    const at = lane.section.messages.findIndex((message) => message.line === line);
    if (at >= 0) { return { lane, at }; }
  }
  return null;
}

/** What is down behind a section, as `1:0,2 key 2:7` says it: at the last message of each such bar. */
function stillDownFaults(lane, what, said) {
  const names = [...what.matchAll(/(key )?(\d+):([\d,]+)/g)].flatMap(([, key, device, numbers]) => numbers.split(",").map((number) => ({ key, device: Number(device), number: Number(number) })));
  return names.flatMap(({ key, device, number }) => {
    const isIt = (row, bar) => bar.open && (key ? row.kind === "key" && bar.device === device && bar.scan === number : row.kind === "finger" && row.device === device && row.id === number);
    const found = lane.rows.flatMap((row) => row.bars.filter((bar) => isIt(row, bar)).map((bar) => ({ row, bar })))[0];
    return found ? [{ kind: "judge", lane, at: found.bar.marks[found.bar.marks.length - 1], row: found.row, t: found.bar.to, word: "StillDown", said }] : [];
  });
}

/** The faults of judge's line; none where the streams are whole, or where the line is of no message. */
function judgeFaults(said) {
  const broken = /^stream: Broken (\d+) (\w+)$/.exec(said);
  const still = /^stream: StillDown (\d+) (.*)$/.exec(said);
  if (broken) {
    const place = placeOfLine(state.model, Number(broken[1]));
    return place ? [faultAt("judge", place.lane, place.at, broken[2], said)] : [];
  }
  const lane = still && state.model.lanes.find(({ section }) => section.endLine === Number(still[1]));
  return lane ? stillDownFaults(lane, still[2], said) : [];
}

/** The fault of the first message that may not come, where judge was not asked. */
function breakFault(line) {
  const place = placeOfLine(state.model, line);
  return place ? [faultAt("judge", place.lane, place.at, "may not come", state.verdict)] : [];
}

/** The fault of two streams that differ: at the wanted point, or for one that came besides at the wanted point before it. */
function compareFaults(model, { verdict, a, b, wantedAt, gotAt }) {
  const lane = a && model.lanes.find(({ section }) => section === a);
  const word = verdict.split(" ")[1];
  if (!lane || (wantedAt === null && gotAt === null)) { return []; }
  if (wantedAt !== null) { return [faultAt("compare", lane, wantedAt, word, verdict)]; }
  const last = lane.section.messages.length - 1;
  return last < 0 ? [] : [{ ...faultAt("compare", lane, last, word, verdict), t: b.messages[gotAt].t }];
}
