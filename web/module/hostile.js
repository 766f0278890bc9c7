// hostile.js TRIAL.wasm SMALL_STACK.wasm SCRATCH CASES: does calls by the module while memory, input and output fail, and the longest; prints
// each that ends as it must not. See `hostile`.
const { readFileSync } = require("fs");
const { createHash } = require("crypto");
const [trial, small] = process.argv.slice(2, 4).map((path) => new WebAssembly.Module(readFileSync(path)));
const { failing, longest } = JSON.parse(readFileSync(process.argv[4], "utf8"));
const STACK = 1 << 20;
let wrong = 0, deepest = 0;
const report = (line) => {
  wrong += 1;
  console.log(line);
};

// One call, of whose calls to the host one fails, or it and all later ones: a request, a read or a write, by an error, nothing or one byte.
function call(module, words, input, fails = {}) {
  const given = ["rv_sim", ...words].map((word) => new TextEncoder().encode(word)), parts = { 1: [], 2: [] };
  const calls = { request: 0, read: 0, write: 0 };
  let taken = 0, exports;
  const bytes = (place, length) => new Uint8Array(exports.memory.buffer, place >>> 0, length);
  const way = (kind) => {
    calls[kind] += 1;
    return kind === fails.kind && (calls[kind] === fails.at || (fails.later && calls[kind] > fails.at)) ? fails.way : "well";
  };
  const host = {
    word(index, to, room) {
      if (given[index] === undefined) return -1;
      if (given[index].length <= room) bytes(to, given[index].length).set(given[index]);
      return given[index].length;
    },
    read(to, room) {
      const how = way("read");
      if (how === "error") return -1;
      const part = input.subarray(taken, taken + (how === "short" ? 1 : room));
      bytes(to, part.length).set(part);
      taken += part.length;
      return part.length;
    },
    write(stream, from, length) {
      const how = stream === 1 ? way("write") : "well";
      if (how === "error") return -1;
      const moved = how === "short" ? 1 : how === "none" ? 0 : length;
      parts[stream].push(bytes(from, moved).slice());
      return moved;
    },
    refuses: () => (way("request") === "well" ? 0 : 1),
  };
  exports = new WebAssembly.Instance(module, { host }).exports;
  const status = exports.rv_main();
  if (!fails.kind) {
    const lowest = new Uint32Array(exports.memory.buffer, 0, STACK / 4).findIndex((it) => it !== 0);
    deepest = Math.max(deepest, lowest < 0 ? 0 : STACK - 4 * lowest);
  }
  return { status, output: Buffer.concat(parts[1]), errors: Buffer.concat(parts[2]).toString("latin1"), calls, memory: exports.memory.buffer.byteLength };
}

const same = (one, other) => one.status === other.status && one.errors === other.errors && one.output.equals(other.output);
const isFault = (ended, status, line) => ended.status === status && ended.errors === line + "\n";
const isSilent = (ended, status, line) => isFault(ended, status, line) && ended.output.length === 0;
const isCut = (ended, ample) => isFault(ended, 4, "error: output") && ended.output.length < ample.output.length && ample.output.subarray(0, ended.output.length).equals(ended.output);

for (const { name, words, job } of failing) {
  const input = Buffer.from(job, "base64"), ample = call(trial, words, input);
  let reported = 0;
  const fail = (kind, at, later, way) => call(trial, words, input, { kind, at, later, way });
  for (let at = 1; at <= ample.calls.request; at++) {
    for (const later of [false, true]) {
      const ended = fail("request", at, later, "error");
      if (isSilent(ended, 5, "error: memory")) reported += 1;
      else if (!same(ended, ample)) report(`${name}: request ${at}${later ? ".." : ""} refused: status ${ended.status}, ${ended.errors}`);
    }
  }
  if (reported === 0) report(`${name}: no refused request was reported`);
  for (let at = 1; at <= ample.calls.read; at++) {
    if (!isSilent(fail("read", at, false, "error"), 4, "error: input")) report(`${name}: read ${at} fails`);
    if (!same(fail("read", at, false, "short"), ample)) report(`${name}: read ${at} is short`);
  }
  for (let at = 1; at <= ample.calls.write; at++) {
    for (const way of ["error", "none"]) if (!isCut(fail("write", at, false, way), ample)) report(`${name}: write ${at}, ${way}`);
  }
  for (const kind of ["read", "write"]) if (!same(fail(kind, 1, true, "short"), ample)) report(`${name}: each ${kind} is short`);
  const { request, read, write } = ample.calls;
  if (!request || !read || !write) report(`${name}: nothing was tried`);
  console.log(`${name}: ${request} requests, of which ${reported} of ${2 * request} refusals were reported, ${read} reads, ${write} writes`);
}

for (const { name, words, path, status, output, errors } of longest) {
  const ended = call(trial, words, readFileSync(path));
  const digest = createHash("sha256").update(ended.output).digest("hex");
  if (ended.status !== status || ended.errors !== errors || digest !== output) report(`${name}: status ${ended.status}, ${ended.output.length} bytes, ${ended.errors}`);
  console.log(`${name}: as the program, in ${(ended.memory / 1e6).toFixed(0)} MB`);
}

// Many calls in one process hold no more than few.
const often = failing[0], text = Buffer.from(often.job, "base64"), held = [];
for (let count = 1; count <= 2000; count++) {
  call(trial, often.words, text);
  if (count % 500 === 0) {
    global.gc();
    held.push(process.memoryUsage().rss);
  }
}
if (held[3] - held[0] > 64e6) report(`2,000 calls hold ${held.map((it) => `${(it / 1e6).toFixed(0)} MB`).join(", ")} after each 500`);
console.log(`2,000 calls: ${(held[0] / 1e6).toFixed(0)} MB after 500, ${(held[3] / 1e6).toFixed(0)} MB after all`);

// What overflows the stack ends by a trap, and by no answer.
const traps = (name, action) => {
  try {
    report(`${name}: it did not trap, and answered ${action()}`);
  } catch (trapped) {
    if (!(trapped instanceof WebAssembly.RuntimeError || trapped instanceof RangeError)) throw trapped;
    console.log(`${name}: ${trapped.message}`);
  }
};
const none = () => 0, host = { word: () => -1, read: none, write: none, refuses: none };
const fresh = () => new WebAssembly.Instance(trial, { host }).exports, alone = fresh();
traps("a stack of 64 frames of 16 KiB", () => fresh().try_stack(64));
traps("the program on a stack of 8 KiB", () => call(small, often.words, text).status);
if (fresh().try_stack(48) !== (48 * 49) / 2) report("48 frames of 16 KiB do not fit");

for (let seed = 1; seed <= 4; seed++) {
  const step = alone.try_heap(seed, 20000);
  if (step) report(`the heap, ${seed}: step ${step}`);
}
for (const [wanted, isThere] of [[0n, 1], [1n, 1], [1n << 31n, 1], [(1n << 31n) + 1n, 0], [1n << 32n, 0], [(1n << 32n) + 16n, 0], [(1n << 63n) - 1n, 0]]) {
  if (alone.try_request(wanted) !== isThere) report(`a request of ${wanted} bytes is ${isThere ? "refused" : "granted"}`);
}
const corners = [0n, 1n, 2n, 63n, 64n, 65n, 127n, 0xffffffffn, 1n << 32n, (1n << 64n) - 1n, 0x123456789abcdef0fedcba9876543210n, (1n << 128n) - 1n, 1n << 127n];
for (const a of corners) {
  for (const b of corners) {
    [a * b, a << (b & 127n), a >> (b & 127n)].forEach((right, operation) => {
      const place = alone.try_wide(operation, ...[a, a >> 64n, b, b >> 64n].map((it) => BigInt.asIntN(64, it))) >>> 0;
      const [low, high] = new BigUint64Array(alone.memory.buffer, place, 2);
      if ((high << 64n | low) !== BigInt.asUintN(128, right)) report(`128 bits, operation ${operation} of ${a} and ${b}`);
    });
  }
}
console.log(`the stack was ${deepest} bytes deep at most, of ${STACK}`);
console.log(`${wrong} calls ended as they must not`);
process.exit(wrong ? 1 : 0);
