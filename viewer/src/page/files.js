/* ---- Files that come in: told apart, listed, drawn, or handed to the program. */

const KIND_WORDS = { session: "session", recording: "recording", stream: "streams", causes: "causes", order: "order" };

/** The files that are there, the newest last. `uses` has those that are in use: one of each kind, and of streams one that is drawn and one that is compared
    with it. */
const given = { files: [], uses: { session: null, recording: null, stream: null, other: null, causes: null, order: null } };

/** Takes files that were told apart. What they are not is said, and the others are taken. A stream that comes when replay's is drawn is compared with it. */
function keepFiles(files) {
  const taken = files.filter(({ kind }) => kind !== "wrong");
  given.files.push(...taken);
  for (const kind of ["session", "recording", "causes", "order"]) {
    const newest = taken.filter((file) => file.kind === kind).pop();
    if (newest) { given.uses[kind] = newest; }
  }
  const streams = taken.filter(({ kind }) => kind === "stream");
  // A text with an order in front is an order file too.
  given.uses.order = given.uses.order || streams.find(({ text }) => text.startsWith("order ")) || null;
  if (streams.length === 1 && given.uses.stream && given.uses.stream.isPrinted) {
    given.uses.other = streams[0];
  } else if (streams.length > 0) {
    given.uses.stream = streams[0];
    given.uses.other = streams[1] || null;
    if (!taken.some(({ kind }) => kind === "causes") && given.uses.causes && state.stream) { given.uses.causes = null; }
  }
  return { taken, wrong: files.filter(({ kind }) => kind === "wrong") };
}

function sizeText(bytes) {
  return bytes < 1024 ? counted(bytes, "byte") : bytes < 1048576 ? (bytes / 1024).toFixed(1) + " KiB" : (bytes / 1048576).toFixed(1) + " MiB";
}

/** What a file is used for, in words; null where for nothing. */
function useOf(file) {
  const { uses } = given;
  const isCompared = uses.other !== null;
  if (file === uses.stream) { return isCompared ? "drawn, as it was wanted" : "drawn"; }
  if (file === uses.other) { return "compared, as it came"; }
  return file === uses[file.kind] ? "in use" : null;
}

function trayButton(word, name, act, sign = word) {
  const button = element("button", sign);
  button.type = "button";
  button.title = word;
  button.setAttribute("aria-label", `${word} ${name}`);
  button.onclick = act;
  return button;
}

let isLinkDue = true;

/** The list of files. */
function showTray() {
  byId("program").hidden = given.files.length === 0;
  byId("tray").replaceChildren(...given.files.map((file) => {
    const use = useOf(file);
    const { kind, name } = file;
    const buttons = [
      ...(use === null || (kind === "stream" && file !== given.uses.stream) ? [trayButton(kind === "stream" ? "Draw" : "Use", name, () => useFile(file, kind))] : []),
      ...(kind === "stream" && given.uses.stream && file !== given.uses.stream && file !== given.uses.other ? [trayButton("Compare", name, () => useFile(file, "other"))] : []),
      ...(file.isMade ? [trayButton("Save", name, () => saveFile(name, new Blob([file.bytes])))] : []),
      trayButton("Remove", name, () => removeFile(file), "×"),
    ];
    return element("li", [element("span", KIND_WORDS[kind], "kind"), element("span", [{ name }]), element("span", `${sizeText(file.size)}${use ? ", " + use : ""}`, "soft"), ...buttons],
      use ? "" : "unused");
  }));
  showCommands();
}

function useFile(file, use) {
  const { uses } = given;
  if (use === "stream" && file === uses.other) { uses.other = uses.stream; }
  uses[use] = file;
  showFiles(use === "session" || use === "recording");
}

function removeFile(file) {
  given.files = given.files.filter((one) => one !== file);
  for (const use of Object.keys(given.uses)) {
    if (given.uses[use] === file) { given.uses[use] = given.files.filter(({ kind }) => kind === (use === "other" ? "" : use)).pop() || null; }
  }
  if (!given.uses.stream) {
    given.uses.stream = given.uses.other;
    given.uses.other = null;
  }
  showTray();
  showFiles(false);
}

/** Draws what is in use; where a session or a recording is new, after the program ran. */
async function showFiles(isNew) {
  const notes = [];
  if (isNew) { notes.push(...await runGiven()); }
  const { stream, other, causes, session } = given.uses;
  state.displays = session ? displaysOf(session.text) : new Map();
  if (!stream) { closeModel(); }
  if (stream || causes) {
    const texts = [stream, causes].filter(Boolean).map(({ name, text, kind }) => ({ name, text, kind }));
    takeTexts(texts, other, stream !== null);
    notes.push(...byId("notes").childNodes);
  }
  showTray();
  byId("notes").replaceChildren(...notes);
  // A link's place is that of the files that the page was opened with, and not of later ones.
  if (isLinkDue && state.model) { goToFragment(location.hash); }
  isLinkDue = isLinkDue && !state.model;
  if (stream && !stream.isPrinted && state.model && canRun("judge")) { await judgeDrawn(); }
}

/** Says what files are that the page can't use, and what was done about those that it can. */
function fileNotes({ taken, wrong }) {
  return [
    ...wrong.map(({ name, wrong: what }) => element("p", [{ name }, ` is no session, recording, stream, text of causes or order: ${what}.`], "wrong")),
    ...taken.flatMap(({ name, said }) => said.map((line) => element("p", [{ name }, `: ${line}.`]))),
  ];
}

/** Takes files that were dropped or chosen. */
async function takeFiles(files) {
  try {
    await takeBytes(await Promise.all([...files].map(async (file) => ({ name: file.name, bytes: new Uint8Array(await file.arrayBuffer()) }))));
  } catch (error) {
    byId("notes").replaceChildren(element("p", "The files cannot be read: " + error.message, "wrong"));
  }
}

async function takeBytes(files) {
  const told = keepFiles(await Promise.all(files.map(({ name, bytes }) => tellApart(name, bytes))));
  const isNew = told.taken.some(({ kind }) => kind === "session" || kind === "recording");
  showTray();
  if (told.taken.length > 0) { await showFiles(isNew); }
  byId("notes").prepend(...fileNotes(told));
  if (!hasProgram() && isNew) { byId("notes").append(element("p", "This page has no program in it, so the recording is not run: dist/inputflinger.html has.", "wrong")); }
}
