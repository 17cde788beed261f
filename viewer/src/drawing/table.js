/* ---- What is drawn, as a table for those who do not see it. */

const TABLE_ROWS = 2000;

/** How a bar ended. */
function endOf({ open, canceled }) { return open ? "still down at the end" : canceled ? "cancelled" : "ended"; }

function whatOf(row, bar) {
  return { finger: `finger ${row.id} of device ${row.device}`, outside: "touch outside", focus: "has the focus" }[row.kind] ||
    `key ${bar.scan}${KEY_NAMES.has(bar.code) ? " " + KEY_NAMES.get(bar.code) : ""} of device ${bar.device}`;
}

/** The rows of the table: of each drawn window its bars and marks, by their beginning. */
function tableRows(model) {
  return model.shown.flatMap((lane) => {
    const bars = lane.rows.flatMap((row) => row.bars.map((bar) => ({
      lane, from: bar.from, to: row.kind === "outside" ? null : bar.to, what: whatOf(row, bar), count: bar.marks.length, end: row.kind === "outside" ? "" : endOf(bar),
    })));
    const marks = lane.events.map((event) => ({ lane, from: event.t, to: null, what: event.what === "responsive" ? "responsive again" : event.what, count: null, end: "" }));
    const faults = state.faults.filter((fault) => fault.lane === lane).map(({ t, word }) => ({ lane, from: t, to: null, what: word, count: null, end: "a rule breaks or streams differ" }));
    return [...bars, ...marks, ...faults].sort((a, b) => a.from - b.from);
  });
}

function timeCell(t) { return t === null ? "" : t < 0 ? "before" : millis(t, 1); }

/** Makes the table of what is drawn. */
function makeTable(model) {
  const rows = tableRows(model);
  const caption = `${counted(rows.length, "row")}` + (rows.length > TABLE_ROWS ? `, the first ${TABLE_ROWS.toLocaleString("en")} of them` : "") + "; times from the first event of a device";
  const head = element("tr", ["Window", "What", "From", "To", "Messages", "End"].map((name) => {
    const cell = element("th", name);
    cell.scope = "col";
    return cell;
  }));
  const body = rows.slice(0, TABLE_ROWS).map(({ lane, from, to, what, count, end }) => {
    const name = element("th", lane.section.name);
    name.scope = "row";
    return element("tr", [name, element("td", what), element("td", timeCell(from), "number"), element("td", timeCell(to), "number"),
      element("td", count === null ? "" : count, "number"), element("td", end)]);
  });
  return element("table", [element("caption", caption), element("thead", [head]), element("tbody", body)]);
}

/** Makes the table anew where it is open. */
function showTable() {
  if (state.model && byId("table-panel").open) { byId("table").replaceChildren(makeTable(state.model)); }
}

/** What the screen shows, in words. */
function sayScreen() {
  const fingers = fingersNow(state.model).filter(({ isDown }) => isDown);
  const said = fingers.map(({ lane, row, mark }) => {
    const { pointers, origin } = lane.section.messages[row.marks[mark]];
    return `finger ${row.id} of device ${row.device} in ${lane.section.name} at ${placeOf(pointers.find(({ id }) => id === row.id), origin)}`;
  });
  byId("screen-said").textContent = (state.now < 0 ? "Before the first event: " : `At ${millis(state.now, 100)}: `) + (said.length === 0 ? "no finger is down." : said.join("; ") + ".");
}
