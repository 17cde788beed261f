/* ---- The program itself, as a WebAssembly module in a worker. Each run has a worker and an instance of its own: a run is one call that says nothing until it
   ends, so it is stopped by ending its worker, and its memory goes with it. */

const MEBIBYTE = 1048576;
const LIMITS = { session: 4 * MEBIBYTE, recording: 32 * MEBIBYTE, order: 64 * MEBIBYTE, stream: 64 * MEBIBYTE, other: 64 * MEBIBYTE };

/** For each command the files that it wants, as they are in use, behind their words. */
const COMMANDS = {
  inspect: [["--session", "session"], ["--events", "recording"]],
  replay: [["--session", "session"], ["--events", "recording"]],
  why: [["--session", "session"], ["--events", "recording"]],
  check: [["--session", "session"], ["--events", "recording"], ["--order", "order"]],
  judge: [["--stream", "stream"]],
  verify: [["--stream", "stream"]],
  compare: [["--want", "stream"], ["--got", "other"]],
};

function hasProgram() { return byId("program-module") !== null; }

const running = { stop: null, isStopped: false, begun: 0, command: "" };
let moduleReady = null;

/** The module, unpacked and compiled once. */
function readyModule() {
  moduleReady = moduleReady || (async () => {
    const packed = Uint8Array.from(atob(byId("program-module").textContent), (letter) => letter.charCodeAt(0));
    const stream = new Blob([packed]).stream().pipeThrough(new DecompressionStream("gzip"));
    return WebAssembly.compile(await new Response(stream).arrayBuffer());
  })();
  return moduleReady;
}

/** A text whose run was stopped, or for which the browser has no memory. */
class NotRun extends Error {}

/** Runs the program in a worker of its own. */
async function runInWorker(words, files) {
  const module = await readyModule();
  if (running.isStopped) { throw new NotRun("stopped"); }
  const url = URL.createObjectURL(new Blob([byId("program-worker").textContent], { type: "text/javascript" }));
  const worker = new Worker(url);
  try {
    return await new Promise((done, fail) => {
      running.stop = () => fail(new NotRun("stopped"));
      worker.onmessage = ({ data }) => (data.failed ? fail(new NotRun(whyFailed(data.failed))) : done(data));
      worker.onerror = (event) => fail(new NotRun(whyFailed(event.message)));
      worker.postMessage({ module, words, files });
    });
  } finally {
    worker.terminate();
    URL.revokeObjectURL(url);
    running.stop = null;
  }
}

/** Stops the run that there is, and waits until it has ended. */
async function stopRunning() {
  running.isStopped = true;
  if (running.stop) { running.stop(); }
  while (running.command !== "") { await new Promise((done) => setTimeout(done, 10)); }
}

/** What is to be said of a run that failed, or of one that ended for want of memory. */
function whyFailed(said) {
  return /memory|alloc|RangeError|write failed/i.test(said) ? `the browser has no memory for this run (${said}). Close other pages, or run the native program` : said;
}

/** A file as the program is handed it: no longer than one byte more than it reads. */
function handed(use) { return given.uses[use].bytes.subarray(0, LIMITS[use] + 1); }

function canRun(command) { return hasProgram() && COMMANDS[command].every(([, use]) => given.uses[use] !== null); }

/** The words of a command, its files named by their numbers. */
function wordsOf(command) {
  const words = [command, ...COMMANDS[command].flatMap(([word], k) => [word, String(k + 1)])];
  return command === "compare" ? [...words, "--us", String(state.tolerance.us), "--pixels", String(state.tolerance.pixels)] : words;
}

/** Runs a command over the files in use, and shows what it printed; answers that, or null where it did not end. */
async function runCommand(command) {
  if (running.command !== "") { return null; }
  Object.assign(running, { command, isStopped: false, begun: performance.now() });
  showRunning();
  const timer = setInterval(showRunning, 100);
  try {
    const ended = await runInWorker(wordsOf(command), COMMANDS[command].map(([, use]) => handed(use)));
    const ran = { command, ...ended, text: latin(ended.out), line: latin(ended.err).trimEnd() };
    showRun(ran);
    return ran;
  } catch (error) {
    byId("progress").textContent = `${command}: ${error.message}.`;
    return null;
  } finally {
    clearInterval(timer);
    running.command = "";
    showRunning();
  }
}

function showRunning() {
  const isRunning = running.command !== "";
  byId("stop").disabled = !isRunning;
  byId("bar").hidden = !isRunning;
  document.querySelectorAll("[data-command]").forEach((button) => { button.disabled = isRunning || !canRun(button.dataset.command); });
  if (isRunning) { byId("progress").textContent = `${running.command} is running, ${((performance.now() - running.begun) / 1000).toFixed(1)} s`; }
}

const SHOWN_TEXT = 100000;
let lastRun = null;

/** What a run came to: its status, its line or the front of its text, its time and memory. */
function showRun(ran) {
  const { command, status, text, line, took, memory } = ran;
  lastRun = ran;
  const told = status === 5 || status === 6 ? whyFailed(line) : line;
  byId("progress").textContent = `${command} ended with status ${status}${told ? ": " + told : ""}; ${(took / 1000).toFixed(2)} s, ${Math.ceil(memory / MEBIBYTE)} MiB`;
  byId("said-panel").hidden = text === "";
  byId("said-of").textContent = `What ${command} printed, ${counted(text.length, "byte")}`;
  byId("said").textContent = text.slice(0, SHOWN_TEXT) + (text.length > SHOWN_TEXT ? "\n.." : "");
}

/** What the program printed as a file that is in use. */
function keepPrinted(ran, kind, name) {
  given.files = given.files.filter((file) => !(file.isPrinted && file.kind === kind));
  const file = { name, kind, text: ran.text, bytes: ran.out, size: ran.out.length, said: [], isPrinted: true };
  given.files.push(file);
  given.uses[kind] = file;
}

/** A note on a run that was refused. */
function refusal({ command, status, line }) { return element("p", [{ name: line }, `, says ${command} (status ${status}; docs/STATUSES.md).`], "wrong"); }

/** Makes a session where there is none, replays the recording, and asks why. A stream that was dropped beside them is compared with what replay printed. */
async function runGiven() {
  const { uses } = given;
  await stopRunning();
  const notes = hasProgram() && uses.recording && (!uses.session || uses.session.isMade) ? takeMadeSession() : [];
  if (!canRun("replay")) {
    return uses.session && !uses.recording && hasProgram() && !uses.stream ? [element("p", "This is a session. The recording is still to come.")] : notes;
  }
  const dropped = uses.stream && !uses.stream.isPrinted ? uses.stream : null;
  const replayed = await runCommand("replay");
  if (!replayed) { return notes; }
  if (replayed.status !== 0) { return [...notes, refusal(replayed)]; }
  keepPrinted(replayed, "stream", "what replay printed");
  uses.other = dropped;
  const why = await runCommand("why");
  if (why && why.status === 0) { keepPrinted(why, "causes", "what why printed"); }
  showRun(replayed);
  return /\n\d+ \d+ (motion|key) /.test(replayed.text) ? notes : [...notes, ...await hints()];
}

/** Makes a session for the recording that is in use. */
function takeMadeSession() {
  const { recording } = given.uses;
  const { text, said } = sessionFor(recording);
  given.uses.session = null;
  if (text !== null) {
    const bytes = bytesOf(text);
    const file = { name: "session.toml", kind: "session", text, bytes, size: bytes.length, said: [], isMade: true };
    given.files = [...given.files.filter(({ isMade }) => !isMade), file];
    given.uses.session = file;
  }
  return said.map((line) => element("p", line + "."));
}

/** Where nothing came of a recording: what inspect says of it. */
async function hints() {
  const inspected = await runCommand("inspect");
  const lines = inspected ? inspected.text.split("\n").filter((line) => /^hint |^path /.test(line)) : [];
  return [element("p", ["No finger and no key of this recording is read.", ...lines.map((line) => element("pre", line))], "wrong")];
}

/** What judge says of the streams that are drawn: where a rule breaks, or what is still down. */
async function judgeDrawn() {
  const judged = await runCommand("judge");
  if (judged) {
    state.faults = [...state.faults.filter(({ kind }) => kind !== "judge"), ...judgeFaults(judged.line)];
    redraw();
    showTable();
    const words = judged.status === 0 ? "all streams are whole" : judged.line;
    byId("progress").textContent = `judge: ${words}` + (state.faults.some(({ kind }) => kind === "judge") ? "; j goes there" : "");
  }
}

/** What a button of a command does. */
async function onCommand(command) {
  if (command === "replay" || command === "why") {
    const ran = await runCommand(command);
    if (ran && ran.status === 0) {
      keepPrinted(ran, command === "why" ? "causes" : "stream", `what ${command} printed`);
      await showFiles(false);
      showRun(ran);
    }
  } else if (command === "check") {
    const ran = await runCommand(command);
    if (ran && ran.status === 0) {
      keepPrinted(ran, "stream", "what check printed");
      given.uses.causes = null;
      await showFiles(false);
      showRun(ran);
    }
  } else if (command === "judge") {
    await judgeDrawn();
  } else {
    const ran = await runCommand(command);
    if (ran && command === "compare") { goToFault("compare"); }
  }
}

function showCommands() {
  byId("commands").hidden = !hasProgram();
  showRunning();
}

function listenToProgram() {
  byId("with").hidden = !hasProgram();
  byId("without").hidden = hasProgram();
  document.querySelectorAll("[data-command]").forEach((button) => { button.onclick = () => onCommand(button.dataset.command); });
  byId("stop").onclick = stopRunning;
  byId("save-said").onclick = () => saveFile(`${lastRun.command}.txt`, new Blob([lastRun.out], { type: "text/plain" }));
  byId("us").onchange = byId("pixels").onchange = () => {
    state.tolerance = { us: Math.round(Number(byId("us").value)) || 0, pixels: Math.round(Number(byId("pixels").value)) || 0 };
    if (state.other) { showFiles(false); }
  };
  if (hasProgram()) {
    byId("which").textContent = `Version ${byId("program-version").textContent} of the program runs here, in this page. Its sources are proved; this form is compiled from them ` +
      "by another back end and tested against the native program, and is not proved. A session has at most 4 MiB and 100,000 steps, a recording 32 MiB, " +
      "streams and an order 64 MiB, a run 4,000,000 calls; a run of a greatest recording takes up to 512 MiB.";
  }
}
