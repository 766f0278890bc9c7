// Texts that are packed: the module and the examples in the page, and a job in the address.
const MOST_TEXT = 1 << 18;     // bytes of a job that the page takes
const MOST_TEXT_LINES = 20000; // and lines, since a browser draws no longer text while one types
const MOST_ADDRESS = 200000;   // letters of an address that it reads
const KEPT_ADDRESS = 16000;    // letters of an address that it writes while one types
const TOO_LONG = "#too-long";  // the address of a job that has more

class TooMuch extends Error {}

// Why a text is too long for the page; nothing where it is not.
function whyTooLong(text) {
  const most = " (the page takes " + grouped(MOST_TEXT) + " characters and " + grouped(MOST_TEXT_LINES) + " lines, the program 33,554,432)";
  if (text.length > MOST_TEXT) return counted(text.length, "character") + most;
  let lines = 1;
  for (let at = text.indexOf("\n"); at >= 0 && lines <= MOST_TEXT_LINES; at = text.indexOf("\n", at + 1)) lines += 1;
  return lines > MOST_TEXT_LINES ? "more than " + counted(MOST_TEXT_LINES, "line") + most : "";
}

// The letters that an address may have, as base64 has them for URLs.
function letters(bytes) {
  let text = "";
  for (let at = 0; at < bytes.length; at += 8192) text += String.fromCharCode(...bytes.subarray(at, at + 8192));
  return btoa(text).replace(/\+/g, "-").replace(/\//g, "_").replace(/=/g, "");
}

function unletters(text) {
  const raw = atob(text.trim().replace(/-/g, "+").replace(/_/g, "/"));
  const bytes = new Uint8Array(raw.length);
  for (let at = 0; at < raw.length; at += 1) bytes[at] = raw.charCodeAt(at);
  return bytes;
}

// All that comes through a stream; a few bytes can inflate to millions, so no more than `most` are taken.
async function through(stream, bytes, most) {
  const reader = new Blob([bytes]).stream().pipeThrough(stream).getReader(), parts = [];
  let length = 0;
  for (;;) {
    const { value, done } = await reader.read();
    if (done) break;
    length += value.length;
    if (length > most) { reader.cancel().catch(() => {}); throw new TooMuch("it inflates to more than " + counted(most, "byte")); }
    parts.push(value);
  }
  return new Uint8Array(await new Blob(parts).arrayBuffer());
}

const unpacked = (text, most) => through(new DecompressionStream("gzip"), unletters(text), most);
const deflated = async (text) => letters(await through(new CompressionStream("deflate-raw"), bytesOf(text), Infinity));
const inflated = async (text) => textOf(await through(new DecompressionStream("deflate-raw"), unletters(text), MOST_TEXT));
