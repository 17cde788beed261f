/* ---- Finding: jumps to places, the search, the windows that are drawn, the zoom to a gesture. */

function tellFound(text) { byId("found").textContent = text; }

/** Goes to the next of some places behind what is selected, or with -1 to the one before, and around. */
function goTo(places, by, what) {
  if (places.length === 0) {
    tellFound(`no ${what} in the windows that are drawn`);
    return;
  }
  const { selected, now } = state;
  const here = places.findIndex((one) => selected && one.lane === selected.lane && one.at === selected.at && one.event === selected.event);
  const behind = firstWhere(places.length, (k) => places[k].t > now);
  const next = here >= 0 ? here + by : by > 0 ? behind : behind - 1;
  const k = (next + places.length) % places.length;
  goToPlace(places[k]);
  tellFound(`${what} ${k + 1} of ${places.length}`);
}

function goToPlace({ lane, at, event }) {
  if (event) {
    select({ lane, at: null, event, row: null });
  } else if (at !== null) {
    selectMessage(lane, at);
  } else {
    byId("lanes-box").scrollTop = Math.max(0, lane.top - 8);
  }
}

function jump(kind, by) { goTo(placesOf(state.model, PLACES[kind]), by, { anr: "timeout", mark: "mark" }[kind] || kind); }

function findNext(by) {
  const sought = byId("sought").value;
  if (state.model && sought.trim() !== "") { goTo(soughtPlaces(state.model, state.stream, sought), by, "“" + sought.trim() + "”"); }
}

/** Goes to the first fault of a kind: "judge" or "compare". */
function goToFault(kind) {
  const fault = state.faults.find((one) => one.kind === kind);
  if (fault) {
    showLane(fault.lane);
    select({ lane: fault.lane, row: fault.row, at: fault.at, event: null });
  } else {
    tellFound(kind === "judge" ? "no rule breaks" : state.other ? "no difference" : "one stream alone: nothing is compared");
  }
}

/** Zooms to the gesture of the message that is selected, or of the one that is nearest. */
function zoomToGesture() {
  const lane = state.selected ? state.selected.lane : state.model.shown.find(({ section }) => section.messages.length > 0);
  if (!lane || lane.section.messages.length === 0) { return; }
  const at = state.selected && state.selected.at !== null ? state.selected.at : messageNow(lane);
  const own = gestureAround(lane, at);
  const pairs = lane.partner ? lane.partner.pairs.filter(([{ message }]) => message.t >= own.from && message.t <= own.to) : [];
  const from = pairs.reduce((least, [, other]) => Math.min(least, other.message.t), own.from);
  const to = pairs.reduce((most, [, other]) => Math.max(most, other.message.t), own.to);
  const room = Math.max((to - from) * 0.08, 2000);
  setView(from - room, to + room);
  tellFound(`${shortMillis(own.to - own.from)} long`);
}

/** Draws these windows in this order. */
function arrange(order, hidden) {
  setLanes(state.model, order, hidden);
  if (state.selected && state.model.hidden.has(state.selected.lane.number)) { state.selected = null; }
  sizeLanes();
  showWindows();
  showSelected();
  showTable();
  redraw();
}

function showLane(lane) {
  const { order, hidden } = state.model;
  if (hidden.has(lane.number)) { arrange(order, [...hidden].filter((number) => number !== lane.number)); }
}

function hideLane(lane) { arrange(state.model.order, [...state.model.hidden, lane.number]); }

/** Moves a window up or down among those that are drawn. */
function moveLane(lane, by) {
  const shown = state.model.shown.map(({ number }) => number);
  const at = shown.indexOf(lane.number);
  const other = shown[at + by];
  if (at < 0 || other === undefined) { return; }
  const order = state.model.order.map((number) => (number === lane.number ? other : number === other ? lane.number : number));
  arrange(order, [...state.model.hidden]);
}

/** The list of windows, each with what hides and moves it. */
function showWindows() {
  const { model } = state;
  const focused = document.activeElement && document.activeElement.dataset ? document.activeElement.dataset.does : undefined;
  const items = model.order.map((number) => {
    const lane = model.lanes[number];
    const isHidden = model.hidden.has(number);
    const button = (word, does, act) => {
      const made = element("button", word);
      made.type = "button";
      made.dataset.does = does + number;
      made.setAttribute("aria-label", `${does} ${lane.section.name}`);
      made.onclick = act;
      return made;
    };
    return element("li", [
      button(isHidden ? "Show" : "Hide", isHidden ? "Show" : "Hide", () => (isHidden ? showLane(lane) : hideLane(lane))), " ",
      button("↑", "Up", () => moveLane(lane, -1)), " ", button("↓", "Down", () => moveLane(lane, 1)), " ",
      element("span", lane.section.name, isHidden ? "soft" : ""),
    ]);
  });
  byId("window-list").replaceChildren(...items);
  const same = focused && byId("window-list").querySelector(`[data-does="${focused}"]`);
  if (same) { same.focus(); }
  byId("findable").replaceChildren(...[...model.lanes.slice(0, 64).map(({ section }) => section.name), "cancel", "anr", "removal", "focus"].map((value) => {
    const option = element("option", []);
    option.value = value;
    return option;
  }));
}
