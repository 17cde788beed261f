/* ---- Texts that come in, and the page around them. */

/** Reads a text, one of causes or of streams; `wrong` is what is to be told of one that is refused. */
function readText({ name, text, kind = looksLikeCauses(text) ? "causes" : "stream" }) {
  if (text.length > MAX_BYTES) { return { name, wrong: "too long: " + kind, lines: [] }; }
  try {
    return { name, [kind]: kind === "causes" ? readCauses(text) : readStream(text) };
  } catch (error) {
    if (!(error instanceof BadLine)) { throw error; }
    return { name, wrong: `${kind}: BadLine ${error.line}`, lines: linesOf(text).lines.slice(error.line - 1, error.line) };
  }
}

/** A note on a text that is refused. */
function refusedNote({ name, wrong, lines }) {
  return element("p", [{ name: wrong }, ` in ${name}`, ...lines.map((line) => element("pre", line.slice(0, 400)))], "wrong");
}

/** Takes texts with their names, and a stream that is compared with theirs, and shows what came of them. Where one is refused, nothing changes but what is
    told; `isAll` says that causes of before are not kept. */
function takeTexts(texts, other = null, isAll = false) {
  const read = texts.map(readText);
  const came = other === null ? null : readText({ ...other, kind: "stream" });
  const refused = [...read, ...(came ? [came] : [])].filter(({ wrong }) => wrong);
  const notes = refused.map(refusedNote);
  if (refused.length > 0) {
    state.verdict = refused[0].wrong;
  } else {
    read.filter(({ stream }) => stream).forEach(({ name, stream }) => Object.assign(state,
      { stream, streamName: name, causes: isAll || state.stream ? null : state.causes, other: null }));
    read.filter(({ causes }) => causes).forEach(({ name, causes }) => Object.assign(state, { causes, causesName: name }));
    if (came) { Object.assign(state, { other: came.stream, otherName: came.name }); }
    notes.push(...(state.stream ? openModel() : [element("p", "These are causes. The text of the streams is still to come.")]));
  }
  byId("notes").replaceChildren(...notes);
}

/** Makes the model of the texts that are there, and shows all of it. Answers notes on them. */
function openModel() {
  const { stream, causes, other } = state;
  setPlaying(false);
  Object.assign(state, { model: makeModel(stream, causes ? causes.causes : [], state.displays), selected: null, now: 0, faults: [] });
  const { channels, messages, finger } = countBars(state.model);
  const broken = firstBreak(stream);
  state.verdict = broken === null ? `well formed ${channels} ${messages}` : `stream: NotWellFormed ${broken}`;
  state.faults = broken === null ? [] : breakFault(broken);
  byId("empty").hidden = true;
  document.querySelector("main").hidden = false;
  const { uses } = given;
  const isRun = uses.stream && uses.stream.isPrinted && uses.recording && uses.session;
  const names = (isRun ? `${uses.recording.name} with ${uses.session.name}` : state.streamName + (causes ? " and " + state.causesName : "")) +
    (other ? ", against " + state.otherName : "");
  byId("summary").textContent = [`${names}: ${counted(channels, "window")}`, counted(messages, "message"), shortMillis(state.model.last)].join(", ");
  byId("lanes").setAttribute("aria-label", `Lanes of ${channels} windows with ${finger.bars} fingers, ${finger.canceled} of them cancelled ` +
    `and ${finger.open} still down. Arrow keys go from message to message.`);
  byId("screen-text").hidden = causes !== null;
  const notes = [...modelNotes(broken), ...(other ? openPartner() : [])];
  document.querySelector(".of-stub").hidden = state.model.first === 0;
  byId("stub-said").textContent = `before the first event, not to scale: ${spanOf(state.model.before)}`;
  document.querySelector(".of-pairs").hidden = !other;
  document.querySelector(".of-faults").hidden = state.faults.length === 0;
  sizeLanes();
  showWindows();
  showWhole();
  showSelected();
  showTable();
  if (state.faults.some(({ kind }) => kind === "compare")) { goToFault("compare"); }
  return notes;
}

/** Draws nothing, where no stream is left. */
function closeModel() {
  setPlaying(false);
  Object.assign(state, { model: null, stream: null, other: null, causes: null, selected: null, faults: [] });
  byId("empty").hidden = false;
  document.querySelector("main").hidden = true;
  byId("summary").textContent = "";
}

/** Lays the stream that came beside the one that was wanted. Answers notes on both. */
function openPartner() {
  const { model, stream, other, tolerance } = state;
  const moved = setPartnerTimes(model, other);
  layPartners(model, stream, other, model);
  const found = compareStreams(stream, other, tolerance.us, tolerance.pixels);
  state.comparison = found.verdict;
  state.faults.push(...compareFaults(model, found));
  const isSame = found.verdict.startsWith("same ");
  return [
    element("p", [{ name: found.verdict }, ` with at most ${tolerance.us} µs and ${tolerance.pixels} pixels between two points. `,
      isSame ? "Each point that was wanted came." : state.faults.some(({ kind }) => kind === "compare") ? "The flag stands there; d goes back to it." : ""], isSame ? "" : "wrong"),
    ...(moved === 0n ? [] : [element("p", `The stream that came begins ${spanOf(moved < 0n ? -moved : moved)} ${moved < 0n ? "earlier" : "later"}; it is drawn from its own first event.`)]),
  ];
}

/** What is to be told of the texts beside the picture. */
function modelNotes(broken) {
  const { stream, model: { fall, untold } } = state;
  return [
    ...(broken === null ? [] : [element("p", [{ name: state.verdict }, ": this message may not come there.",
      element("pre", stream.lines[broken - 1])], "wrong")]),
    ...(fall === null ? [] : [element("p", `The moment of line ${fall} is below the one before it; it is drawn where that stands.`)]),
    ...(untold === null ? [] : [element("p", [`The causes are not those of these streams: line ${untold.cause.line} of them gives a finger to `,
      nameOf(untold.channel), ", which is sent no such thing."], "wrong")]),
  ];
}

/** The height of the lanes: all of them, up to most of the window; the rest is scrolled. */
function sizeLanes() {
  const height = AXIS + layLanes(state.model);
  const room = Math.min(Math.max(height, AXIS + 60), Math.max(240, innerHeight * 0.62));
  byId("lanes-box").style.height = byId("lanes").style.height = room + "px";
  byId("lanes-space").style.height = Math.max(0, height - room) + "px";
}

const EXAMPLE = [{ name: "an example", text: `channel 1 left
1 1000000 motion 1 DOWN 0@100,200
2 1010000 motion 1 MOVE 0@100,200
3 1020000 motion 1 UP 0@100,200
end 1 sent 3 received 3 finished 3
channel 2 right
1 1010000 motion 1 DOWN 1@160,400
2 1020000 motion 1 MOVE 1@160,400
end 2 sent 2 received 2 finished 2
` }, { name: "its causes", text: `0 windows 1@0:0,0,540,2400 2@0:540,0,1080,2400
1000000 down 1 0 100,200 touched 1 row first chosen 1 spies - pilfering - given 1 mute - outside -
1010000 down 1 1 700,400 touched 2 row split chosen 2 spies - pilfering - given 2 mute - outside -
1020000 up 1 0 from 1
` }];

/** Texts as viewer/make writes them, by lines. */
function joined(texts) { return texts.map(({ name, lines }) => ({ name, text: lines.join("\n") })); }

/** Takes the texts that viewer/make put into the page, as if they were dropped; of bytes, each a character from 0 to 255. */
function takePageTexts() {
  const texts = joined(JSON.parse(byId("texts").textContent));
  return takeBytes(texts.map(({ name, text }) => ({ name, bytes: Uint8Array.from(text, (letter) => letter.charCodeAt(0)) })));
}

function listenToFiles() {
  const files = byId("files");
  const isOver = (over) => document.body.classList.toggle("over", over);
  byId("choose").onclick = () => files.click();
  byId("example").onclick = () => takeTexts(EXAMPLE);
  files.onchange = () => takeFiles(files.files).then(() => { files.value = ""; });
  ondragover = (event) => { event.preventDefault(); isOver(true); };
  ondragleave = () => isOver(false);
  ondrop = (event) => { event.preventDefault(); isOver(false); takeFiles(event.dataTransfer.files); };
}

function listenToLanes() {
  const lanes = byId("lanes");
  lanes.addEventListener("wheel", onWheel, { passive: false });
  lanes.onpointerdown = onPointerDown;
  lanes.onpointermove = onPointerMove;
  lanes.onpointerup = onPointerUp;
  lanes.onpointercancel = () => { drag = null; };
  lanes.onpointerleave = () => { byId("hint").hidden = true; };
  byId("lanes-box").onscroll = redraw;
}

/** Goes to a part of the time that there is. */
function setMoment(part) {
  const { first, last } = state.model;
  state.now = first + (last - first) * part;
  redraw();
}

function listenToControls() {
  byId("closer").onclick = () => state.model && zoomByKey(0.5);
  byId("farther").onclick = () => state.model && zoomByKey(2);
  byId("whole").onclick = () => state.model && showWhole();
  byId("gesture").onclick = () => state.model && zoomToGesture();
  for (const [button, panel] of [["keys", "help"], ["windows", "windows-panel"], ["share", "share-panel"]]) {
    byId(button).onclick = () => {
      byId(panel).hidden = !byId(panel).hidden;
      byId(button).setAttribute("aria-expanded", String(!byId(panel).hidden));
    };
  }
  byId("show-all").onclick = () => state.model && arrange(state.model.order, []);
  byId("as-told").onclick = () => state.model && arrange([], [...state.model.hidden]);
  byId("find").onsubmit = (event) => { event.preventDefault(); findNext(1); };
  byId("table-panel").ontoggle = showTable;
  byId("play").onclick = () => setPlaying(!state.playing);
  byId("slider").oninput = () => { setMoment(Number(byId("slider").value) / 10000); };
  byId("screen").onclick = ({ offsetX, offsetY }) => {
    const found = hitScreen(offsetX, offsetY);
    if (found) { select(found); }
  };
  onkeydown = onKey;
  onresize = () => {
    if (state.model) { sizeLanes(); }
    redraw();
  };
  darkness.onchange = () => { themeKept = null; redraw(); };
}

/** Where on the page the message of a line is drawn, for whoever wants to click it. */
function placeOnPage(line) {
  const lane = state.model.lanes.find(({ section }) => section.messages.some((message) => message.line === line));
  const at = lane.section.messages.findIndex((message) => message.line === line);
  const frame = lanesFrame();
  const box = byId("lanes").getBoundingClientRect();
  const row = rowWith(lane, at, null);
  return { x: box.left + frame.x(lane.section.messages[at].t), y: box.top + AXIS + lane.top + row.top + row.height / 2 - frame.scroll };
}

/** What tests and scripts may read of the page. */
window.viewer = Object.freeze({
  verdict: () => state.verdict,
  counts: () => countBars(state.model),
  shown: () => byId("why").innerText,
  placeOnPage,
  dots: () => dotsDrawn.map(({ x, y, fingers }) => ({ x, y, windows: fingers.map(({ lane }) => lane.section.name) })),
  labels: () => labelsDrawn.map(({ x, y, width, height, name }) => ({ x, y, width, height, name })),
  view: () => ({ ...state.view, now: state.now, playing: state.playing }),
  windows: () => state.model.shown.map(({ section }) => section.name),
  faults: () => state.faults.map(({ kind, lane, at, word }) => ({ kind, window: lane.section.name, line: lane.section.messages[at].line, word })),
  comparison: () => (state.other ? state.comparison : null),
  given: () => given.files.map((file) => ({ kind: file.kind, name: file.name, use: useOf(file) })),
  isRunning: () => running.command !== "",
  ran: () => lastRun && { command: lastRun.command, status: lastRun.status, text: lastRun.text, line: lastRun.line, took: lastRun.took, memory: lastRun.memory },
  svg: pictureSvg,
});

listenToFiles();
listenToLanes();
listenToControls();
listenToSharing();
listenToProgram();
if (byId("texts").textContent !== "[]") { takePageTexts(); }
