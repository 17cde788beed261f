/* One run of the program in an instance of its own. Also what the tests run in node. */

const NO_ROOM = 6; // INPUTFLINGER_NO_ROOM of include/inputflinger.h
const LINE_ROOM = 4096;
const LEAST_ROOM = 65536;

/** The memory of a run: blocks of the module's own malloc. */
class Lent {
  constructor(exports) { this.exports = exports; }

  block(size) {
    const at = this.exports.malloc(BigInt(Math.max(size, 1)));
    if (at === 0n) { throw new RangeError(`the browser gives no memory for ${Math.ceil(size / 1048576)} MiB more`); }
    return at;
  }

  bytes(at, length) { return new Uint8Array(this.exports.memory.buffer, Number(at), Number(length)); }

  copy(given) {
    const at = this.block(given.length);
    this.bytes(at, given.length).set(given);
    return at;
  }

  numbers(at, count) { return new BigUint64Array(this.exports.memory.buffer, Number(at), count); }
}

/** Runs the program by its words, over files that the words name 1, 2 and 3: `inputflinger_run`. Answers its status, what it printed and its memory. A text
    that is longer than the room that it was given is printed by a second run. */
function runProgram(module, words, files) {
  const { exports } = new WebAssembly.Instance(module, {});
  const lent = new Lent(exports);
  const line = new TextEncoder().encode(words.map((word) => word + "\n").join(""));
  const given = lent.copy(line);
  const table = lent.block(16 * 3);
  // A block may move the memory, so what is written into it is looked up behind the last block.
  const lentFiles = files.map((file) => [lent.copy(file), BigInt(file.length)]);
  lentFiles.forEach((file, k) => lent.numbers(table + BigInt(16 * k), 2).set(file));
  const err = lent.block(LINE_ROOM);
  const ran = lent.block(24);
  let room = LEAST_ROOM + (/^(replay|check|why|batch|hover|emit)$/.test(words[0]) ? 2 * files.reduce((sum, file) => sum + file.length, 0) : 0);
  for (let runs = 1; ; runs += 1) {
    const out = lent.block(room);
    const answer = exports.inputflinger_run(given, BigInt(line.length), table, BigInt(files.length), out, BigInt(room), err, BigInt(LINE_ROOM), ran);
    const [outLength, errLength] = lent.numbers(ran, 2);
    const status = Number(lent.numbers(ran + 16n, 1)[0] & 0xffffffffn);
    if (answer !== NO_ROOM || runs > 1) {
      return { answer, status, out: lent.bytes(out, outLength).slice(), err: lent.bytes(err, errLength).slice(), memory: exports.memory.buffer.byteLength };
    }
    exports.free(out);
    room = Number(outLength);
  }
}
