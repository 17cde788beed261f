/* ---- Sharing: a link that keeps the place, pictures, print. */

const PICTURE_GAP = 16;

/** The place as the fragment of a link: what is seen, the moment, the line that is selected, what is hidden, and the order. */
function placeText() {
  const { view: { from, to }, now, selected, model } = state;
  const parts = [`view=${Math.round(from)}:${Math.round(to)}`, `now=${Math.round(now)}`];
  if (selected && selected.at !== null) { parts.push(`line=${selected.lane.section.messages[selected.at].line}`); }
  if (model.hidden.size > 0) { parts.push(`hide=${[...model.hidden].map((number) => number + 1).sort((a, b) => a - b).join(",")}`); }
  if (model.order.some((number, k) => number !== k)) { parts.push(`order=${model.order.map((number) => number + 1).join(",")}`); }
  return "#" + parts.join("&");
}

/** Goes to the place that a fragment keeps; what it has of another kind is passed over. */
function goToFragment(fragment) {
  const told = new URLSearchParams(fragment.slice(1));
  const lanes = (key) => (told.get(key) || "").split(",").filter((word) => /^\d{1,3}$/.test(word)).map((word) => Number(word) - 1);
  if (!state.model || ![...told.keys()].some((key) => ["view", "now", "line", "hide", "order"].includes(key))) { return; }
  arrange(lanes("order"), lanes("hide"));
  const line = Number(told.get("line"));
  const lane = state.model.shown.find(({ section }) => section.messages.some((message) => message.line === line));
  if (lane) { selectMessage(lane, lane.section.messages.findIndex((message) => message.line === line)); }
  const view = /^(-?\d{1,16}):(-?\d{1,16})$/.exec(told.get("view") || "");
  if (view && Number(view[1]) < Number(view[2])) { setView(Number(view[1]), Number(view[2])); }
  if (/^-?\d{1,16}$/.test(told.get("now") || "")) { state.now = Math.min(Math.max(Number(told.get("now")), state.model.first), state.model.last); }
  redraw();
}

let keptPlace = "";

/** Keeps the place in the page's own link, a short while after it changed. */
function keepPlace() {
  clearTimeout(keepPlace.timer);
  keepPlace.timer = setTimeout(() => {
    if (!state.model || state.playing) { return; }
    keptPlace = placeText();
    byId("link").value = location.href.replace(/#.*$/, "") + keptPlace;
    try { history.replaceState(null, "", keptPlace); } catch (error) { /* Some browsers keep no state of a file; the link above has it. */ }
  }, 250);
}

async function copyLink() {
  byId("link").value = location.href.replace(/#.*$/, "") + placeText();
  byId("share-panel").hidden = false;
  byId("share").setAttribute("aria-expanded", "true");
  byId("link").select();
  const isCopied = await navigator.clipboard.writeText(byId("link").value).then(() => true, () => false);
  tellFound(isCopied ? "the link is copied" : "the link is selected; copy it");
}

/** Draws the whole lanes and the screen beside each other on a pen; answers the size. */
function paintPicture(pen) {
  const [lanes, screen] = ["lanes", "screen"].map((id) => byId(id));
  const width = Math.max(lanes.clientWidth, 480);
  const height = Math.max(AXIS + layLanes(state.model), 60);
  const [screenWidth, screenHeight] = [Math.max(screen.clientWidth, 240), Math.max(Math.min(screen.clientHeight, Math.max(height, 360)), 240)];
  const size = [width + PICTURE_GAP + screenWidth, Math.max(height, screenHeight)];
  fillBox(pen, theme().panel, 0, 0, ...size);
  paintLanes(pen, frameOf(width, height, 0));
  pen.save();
  pen.translate(width + PICTURE_GAP, 0);
  paintScreen(pen, screenWidth, screenHeight);
  pen.restore();
  return size.map(Math.ceil);
}

function pictureSvg() {
  const pen = new SvgPen();
  const [width, height] = paintPicture(pen);
  redraw();
  return pen.text(width, height, byId("summary").textContent);
}

/** The picture as a PNG with two dots a pixel, or one where that would be more than a canvas holds. */
async function picturePng() {
  const [width, height] = paintPicture(new SvgPen());
  const scale = width * height * 4 < 60000000 ? 2 : 1;
  const canvas = document.createElement("canvas");
  Object.assign(canvas, { width: width * scale, height: height * scale });
  const context = canvas.getContext("2d");
  context.textBaseline = "middle";
  context.scale(scale, scale);
  paintPicture(context);
  redraw();
  return new Promise((done) => canvas.toBlob(done, "image/png"));
}

/** Hands a file to the user. */
function saveFile(name, blob) {
  const link = document.createElement("a");
  link.href = URL.createObjectURL(blob);
  link.download = name;
  link.click();
  setTimeout(() => URL.revokeObjectURL(link.href), 10000);
}

function saveSvg() { saveFile("inputflinger.svg", new Blob([pictureSvg()], { type: "image/svg+xml" })); }

async function savePng() { saveFile("inputflinger.png", await picturePng()); }

/** Print shows all lanes, on white. */
function preparePrint(isPrinting) {
  document.documentElement.classList.toggle("light", isPrinting);
  themeKept = null;
  if (!state.model) { return; }
  if (isPrinting) {
    const height = AXIS + layLanes(state.model);
    byId("lanes-box").style.height = byId("lanes").style.height = height + "px";
    byId("lanes-space").style.height = "0";
  } else {
    sizeLanes();
  }
  draw();
}

function listenToSharing() {
  byId("copy-link").onclick = copyLink;
  byId("save-svg").onclick = saveSvg;
  byId("save-png").onclick = savePng;
  byId("print").onclick = () => print();
  onbeforeprint = () => preparePrint(true);
  onafterprint = () => preparePrint(false);
  onhashchange = () => { if (location.hash !== keptPlace) { goToFragment(location.hash); } };
}
