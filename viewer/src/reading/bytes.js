/* ---- The bytes of a file as a text, in whichever way they were kept. */

/** What is packed with gzip. Where the file is cut, what stands before the cut. */
async function unpackedGzip(bytes) {
  const pieces = [];
  let cut = false;
  try {
    const reader = new Blob([bytes]).stream().pipeThrough(new DecompressionStream("gzip")).getReader();
    for (let piece = await reader.read(); !piece.done; piece = await reader.read()) { pieces.push(piece.value); }
  } catch (error) {
    cut = true;
  }
  return { bytes: new Uint8Array(await new Blob(pieces).arrayBuffer()), cut };
}

/** The name of the UTF-16 that bytes are in, or null. PowerShell writes it with a mark in front. */
function wideCoding(bytes) {
  if (bytes[0] === 0xff && bytes[1] === 0xfe) { return "utf-16le"; }
  if (bytes[0] === 0xfe && bytes[1] === 0xff) { return "utf-16be"; }
  const isPlain = (byte) => (byte >= 32 && byte < 127) || byte === 9 || byte === 13 || byte === 10;
  const pairs = Math.min(bytes.length, 400) >> 1;
  const all = (isPair) => pairs > 0 && Array.from({ length: pairs }, (_, k) => isPair(bytes[2 * k], bytes[2 * k + 1])).every(Boolean);
  return all((low, high) => high === 0 && isPlain(low)) ? "utf-16le" : all((high, low) => high === 0 && isPlain(low)) ? "utf-16be" : null;
}

function latin(bytes) { return new TextDecoder("latin1").decode(bytes); }

/** The bytes of a text of one character a byte. `latin` reads bytes as windows-1252, so the characters that it makes of 128 to 159 go back too. */
const BYTE_OF = new Map(Array.from({ length: 256 }, (_, byte) => [latin(Uint8Array.of(byte)), byte]));
function bytesOf(text) {
  const bytes = new Uint8Array(text.length);
  for (let k = 0; k < text.length; k += 1) {
    const code = text.charCodeAt(k);
    bytes[k] = code < 128 ? code : BYTE_OF.get(text[k]) || code;
  }
  return bytes;
}

/** A file as text, a character for each byte, with what was lost or how it was kept. `kept` is null where its bytes are the text's. */
async function textOf(bytes) {
  const said = [];
  let plain = bytes;
  if (bytes[0] === 0x1f && bytes[1] === 0x8b) {
    const unpacked = await unpackedGzip(bytes);
    plain = unpacked.bytes;
    if (unpacked.cut) { said.push("the gzip file is cut; what stands before the cut is taken"); }
  }
  const coding = wideCoding(plain);
  if (coding) {
    const text = new TextDecoder(coding).decode(plain.subarray(0, plain.length & ~1));
    return { text, said, bytes: new TextEncoder().encode(text) };
  }
  const begin = plain[0] === 0xef && plain[1] === 0xbb && plain[2] === 0xbf ? 3 : 0;
  return { text: latin(plain.subarray(begin)), said, bytes: plain.subarray(begin) };
}
