/* Tries the allocator of the web form: blocks are aligned, apart from each other, keep what was written, and are had again when they were freed.

     node heap.mjs MODULE.wasm */
import fs from "node:fs";

const module = new WebAssembly.Module(fs.readFileSync(process.argv[2]));
let seed = 1;

function below(count) {
  seed = (seed * 1103515245 + 12345) % 2147483648;
  return Math.floor((seed / 2147483648) * count);
}

function aSize() { return below([200, 200, 5000, 100000][below(4)]); }

function wrong(what) { throw new Error(what); }

/** Blocks with the byte that each is filled with. */
class Blocks {
  exports = new WebAssembly.Instance(module, {}).exports;
  live = new Map();

  bytes(at, size) { return new Uint8Array(this.exports.memory.buffer, at, size); }

  keep(at, size) {
    if (at === 0 || at % 16 !== 0 || this.live.has(at)) { wrong(`a block at ${at}`); }
    const byte = below(256);
    this.bytes(at, size).fill(byte);
    this.live.set(at, { size, byte });
  }

  take(at, count = Infinity) {
    const { size, byte } = this.live.get(at);
    if (!this.bytes(at, Math.min(size, count)).every((one) => one === byte)) { wrong(`a block of ${size} bytes lost what was written`); }
    this.live.delete(at);
  }

  step() {
    const at = [...this.live.keys()][below(this.live.size)];
    const size = aSize();
    const what = this.live.size < 5 ? 0 : this.live.size > 200 ? 1 : below(3);
    if (what === 0) {
      this.keep(Number(this.exports.malloc(BigInt(size))), size);
    } else if (what === 1) {
      this.take(at);
      this.exports.free(BigInt(at));
    } else {
      const { size: had, byte } = this.live.get(at);
      const moved = Number(this.exports.realloc(BigInt(at), BigInt(size)));
      this.live.delete(at);
      if (!this.bytes(moved, Math.min(had, size)).every((one) => one === byte)) { wrong(`a block of ${had} bytes that became ${size} lost what was written`); }
      this.keep(moved, size);
    }
  }

  isApart() {
    const sorted = [...this.live].sort(([a], [b]) => a - b);
    return sorted.every(([at], k) => k === 0 || sorted[k - 1][0] + sorted[k - 1][1].size <= at);
  }
}

for (let round = 0; round < 3; round += 1) {
  const blocks = new Blocks();
  for (let k = 0; k < 4000; k += 1) { blocks.step(); }
  if (!blocks.isApart()) { wrong("blocks overlap"); }
  [...blocks.live.keys()].forEach((at) => { blocks.take(at); blocks.exports.free(BigInt(at)); });
  const memory = blocks.exports.memory.buffer.byteLength;
  const most = blocks.exports.malloc(BigInt(memory - 2 * 1048576));
  if (most === 0n || blocks.exports.memory.buffer.byteLength > memory) { wrong("what was freed is not had again"); }
  if (blocks.exports.malloc(1n << 32n) !== 0n || blocks.exports.malloc((1n << 64n) - 1n) !== 0n) { wrong("more than there can be"); }
}
console.log("heap: 12,000 steps");
