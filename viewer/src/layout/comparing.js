/* ---- Two streams side by side: the points of what was wanted and of what came, pair by pair, as `compare` pairs them (docs/STREAMS.md). */

/** A point is each message but a move that is not canceled. */
function isPoint({ action, canceled }) { return action !== "MOVE" || canceled === true; }

/** What two points of a kind say, each thing by the word with which compare names it where it differs. */
const SAYS = {
  motion: { device: ({ device }) => device, action: ({ action }) => action, index: ({ index }) => index, flags: ({ canceled, obscured, partly }) => [canceled === true, obscured === true, partly === true], pointers: ({ pointers }) => pointers.map(({ id }) => id) },
  key: { device: ({ device }) => device, scan: ({ scan }) => scan, code: ({ code }) => code, meta: ({ meta }) => meta, direction: ({ way }) => way.split(" ")[0], flags: ({ way }) => way === "UP canceled", repeat: ({ repeat }) => repeat },
  focus: { focus: ({ gained }) => gained },
};

/** What the places of two motions differ in: those of the first finger, in order of ids, that is too far off on an axis. */
function placeApart(a, b, pixels) {
  const far = (a.pointers || []).findIndex(({ x, y }, k) => Math.abs(x - b.pointers[k].x) > pixels || Math.abs(y - b.pointers[k].y) > pixels);
  return far < 0 ? null : `place ${b.pointers[far].x - a.pointers[far].x},${b.pointers[far].y - a.pointers[far].y}`;
}

/** In what a point that came differs from one that was wanted, the first that holds, as compare's line says it; null where they agree. */
function differenceOf(a, b, us, pixels) {
  if (a.kind !== b.kind) { return "kind"; }
  const word = Object.entries(SAYS[a.kind]).find(([, said]) => JSON.stringify([said(a)]) !== JSON.stringify([said(b)]));
  if (word) { return word[0]; }
  const place = placeApart(a, b, pixels);
  const late = b.moment - a.moment;
  return place || ((late < 0n ? -late : late) > BigInt(us) ? `time ${late}` : null);
}

function agree(a, b, us, pixels) { return differenceOf(a, b, us, pixels) === null; }

/** The greater of a distance in time and in place so far and those of two points that agree. */
function measured({ us, pixels }, a, b) {
  const late = b.moment - a.moment;
  const off = (a.pointers || []).flatMap(({ x, y }, k) => [Math.abs(b.pointers[k].x - x), Math.abs(b.pointers[k].y - y)]);
  const apart = late < 0n ? -late : late;
  return { us: apart > us ? apart : us, pixels: Math.max(pixels, ...off) };
}

/** The sections of both streams by channel, the first of a channel with the first, the second with the second: [wanted, got], either may be missing. */
function pairedSections(wanted, got) {
  const left = [...got.sections];
  const pairs = wanted.sections.map((section) => {
    const k = left.findIndex(({ id }) => id === section.id);
    return [section, k < 0 ? null : left.splice(k, 1)[0]];
  });
  return [...pairs, ...left.map((section) => [null, section])];
}

/** The pairs of points of two sections, up to the shorter one's end. */
function pointPairs(wanted, got) {
  const [a, b] = [wanted, got].map(({ messages }) => messages.flatMap((message, at) => (isPoint(message) ? [{ message, at }] : [])));
  return { pairs: a.slice(0, b.length).map((point, k) => [point, b[k]]), missing: a[b.length] || null, added: b[a.length] || null };
}

/** What `compare` says of two streams, as its line says it, with the place of the first fault: sections, and a message of either. */
function compareStreams(wanted, got, us, pixels) {
  let points = 0;
  let most = { us: 0n, pixels: 0 };
  const sections = pairedSections(wanted, got);
  for (const [a, b] of sections) {
    if (!a) { return { verdict: `compare: NewSection ${b.line}`, a, b, wantedAt: null, gotAt: null }; }
    if (!b) { return { verdict: `compare: NoSection ${a.line}`, a, b, wantedAt: null, gotAt: null }; }
    const { pairs, missing, added } = pointPairs(a, b);
    const wrong = pairs.find(([one, other]) => !agree(one.message, other.message, us, pixels));
    if (wrong) {
      const [one, other] = wrong.map(({ message }) => message);
      return { verdict: `compare: Differs ${one.line} ${other.line} ${differenceOf(one, other, us, pixels)}`, a, b, wantedAt: wrong[0].at, gotAt: wrong[1].at };
    }
    if (missing) { return { verdict: `compare: Missing ${missing.message.line}`, a, b, wantedAt: missing.at, gotAt: null }; }
    if (added) { return { verdict: `compare: Added ${added.message.line}`, a, b, wantedAt: null, gotAt: added.at }; }
    points += pairs.length;
    most = pairs.reduce((far, [one, other]) => measured(far, one.message, other.message), most);
  }
  return { verdict: `same ${sections.length} ${points} us ${most.us} pixels ${most.pixels}`, a: null, b: null, wantedAt: null, gotAt: null };
}

/** Gives each lane the section that came in its place: its rows, laid to those of the lane, and the pairs of points of both. */
function layPartners(model, wanted, got, times) {
  const partners = new Map(pairedSections(wanted, got).filter(([a, b]) => a && b));
  model.lanes.forEach((lane) => {
    const section = partners.get(lane.section);
    lane.partner = null;
    if (section) {
      const rows = makeLane(section, lane.number, got, [], times.last).rows;
      rows.forEach((row) => { row.isPartner = true; });
      const partnerOf = (row) => rows.find((one) => one.kind === row.kind && one.device === row.device && one.id === row.id) || null;
      const ofRow = new Map(lane.rows.map((row) => [row, partnerOf(row)]));
      const extra = rows.filter((row) => ![...ofRow.values()].includes(row));
      lane.partner = { section, ofRow, extra, pairs: pointPairs(lane.section, section).pairs };
    }
  });
}

/** Gives the messages of a stream that came their times beside those that were wanted. Where they lie more than an hour apart, as of another clock, they are laid
    from their own first event; answers by how many microseconds they were moved. */
function setPartnerTimes(model, got) {
  const messages = got.sections.flatMap((section) => section.messages);
  const event = leastMoment(messages.filter(isOfDevice));
  const apart = event === null ? 0n : event - model.zero;
  const moved = apart > 3600000000n || apart < -3600000000n ? apart : 0n;
  messages.forEach((message) => { message.t = Number(message.moment - moved - model.zero); });
  messages.filter(({ t, kind }) => t < model.first || (kind === "focus" && t < 0)).forEach((message) => { message.t = model.first / 2; });
  raiseTimes(got.sections);
  model.last = messages.reduce((most, { t }) => Math.max(most, t), model.last);
  return moved;
}
