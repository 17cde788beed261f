/* Turns one comparison of a WebAssembly module: below becomes above, below or equal becomes above or equal, and the other way round.

     node plant.mjs MODULE.wasm            prints how many comparisons there are
     node plant.mjs MODULE.wasm K OUT.wasm writes the module with comparison K turned */
import fs from "node:fs";

const [moduleFile, place, out] = process.argv.slice(2);
const bytes = fs.readFileSync(moduleFile);
/* i32.lt_s to i32.ge_u, and the same of i64: lt_s, lt_u, gt_s, gt_u, le_s, le_u, ge_s, ge_u. */
const TURNED = Object.fromEntries([0x48, 0x53].flatMap((first) => [2, 3, 0, 1, 6, 7, 4, 5].map((to, k) => [first + k, first + to])));
let at = 8;

function number() {
  let value = 0;
  for (let shift = 1; ; shift *= 128) {
    const byte = bytes[at++];
    value += (byte & 127) * shift;
    if (byte < 128) { return value; }
  }
}

const skip = { blockType: number, u: number, uu: () => { number(); number(); }, f32: () => { at += 4; }, f64: () => { at += 8; }, byte: () => { at += 1; },
  table: () => { for (let count = number() + 1; count > 0; count -= 1) { number(); } } };

/* What stands behind each instruction. */
function operands(op) {
  if (op >= 0x02 && op <= 0x04) { return "blockType"; }
  if (op === 0x0e) { return "table"; }
  if (op === 0x11 || (op >= 0x28 && op <= 0x3e)) { return "uu"; }
  if (op === 0x0c || op === 0x0d || op === 0x10 || (op >= 0x20 && op <= 0x26) || op === 0x41 || op === 0x42) { return "u"; }
  if (op === 0x43) { return "f32"; }
  if (op === 0x44) { return "f64"; }
  return op === 0x3f || op === 0x40 ? "byte" : null;
}

function prefixed() {
  const op = number();
  if (op === 8 || op === 10 || op === 12 || op === 14) { skip.uu(); } else if (op === 9 || op === 11 || op === 13 || op > 14) { number(); }
}

function comparisons() {
  const found = [];
  while (at < bytes.length) {
    const section = bytes[at++];
    const end = number() + at;
    if (section === 10) {
      for (let functions = number(); functions > 0; functions -= 1) {
        const stop = number() + at;
        for (let locals = number(); locals > 0; locals -= 1) { skip.uu(); }
        while (at < stop) {
          const op = bytes[at++];
          if (op === 0xfc) { prefixed(); }
          if (TURNED[op]) { found.push(at - 1); }
          const kind = operands(op);
          if (kind) { skip[kind](); }
        }
      }
    }
    at = end;
  }
  return found;
}

const found = comparisons();
if (place === undefined) {
  console.log(found.length);
} else {
  bytes[found[Number(place)]] = TURNED[bytes[found[Number(place)]]];
  fs.writeFileSync(out, bytes);
}
