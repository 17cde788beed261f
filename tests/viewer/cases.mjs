/* Runs cases in the web form of the program, and holds each to what the native program printed: bytes, line and status.

     node cases.mjs RUN.js MODULE.wasm CASES.json [LIMIT [RUNS]]

   CASES.json is a list of { name, words, files, status, out, err }: files and out are paths, err a text of one character a byte. Prints a line of JSON:
   { cases, differ: [names], memory, took }: took is the least processor time of one of RUNS runs of the last case, in milliseconds. It ends at LIMIT that differ. */
import fs from "node:fs";

const [runner, moduleFile, casesFile, limit = "10", runs = "1"] = process.argv.slice(2);
const runProgram = new Function(fs.readFileSync(runner, "utf8") + "\nreturn runProgram;")();
const module = new WebAssembly.Module(fs.readFileSync(moduleFile));
const differ = [];
let memory = 0;
let count = 0;
let took = 0;

function ran({ words, files }) {
  try {
    const bytes = files.map((file) => fs.readFileSync(file));
    took = Infinity;
    for (let left = Number(runs); ; left -= 1) {
      const before = process.cpuUsage();
      const ended = runProgram(module, words, bytes);
      const { user, system } = process.cpuUsage(before);
      took = Math.min(took, (user + system) / 1000);
      if (left <= 1) { return ended; }
    }
  } catch (error) {
    return { status: String(error), out: Buffer.from(""), err: Buffer.from(""), memory: 0 };
  }
}

for (const one of JSON.parse(fs.readFileSync(casesFile))) {
  const ended = ran(one);
  const isSame = ended.status === one.status && Buffer.from(ended.err).toString("latin1") === one.err && Buffer.compare(Buffer.from(ended.out), fs.readFileSync(one.out)) === 0;
  count += 1;
  memory = Math.max(memory, ended.memory);
  if (!isSame && differ.push(`${one.name}: status ${ended.status}, wanted ${one.status}`) >= Number(limit)) { break; }
}
console.log(JSON.stringify({ cases: count, differ, memory, took }));
