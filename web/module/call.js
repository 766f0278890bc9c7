// One call of the program: its words, its input, and what it writes. Each call has an instance of the module for itself, so that nothing
// of one is left for the next. `most` is how many bytes of output are taken; a write past them fails, as on a full disk.
function callProgram(module, words, input, most) {
  const given = ["rv_sim", ...words].map((word) => new TextEncoder().encode(word));
  const streams = { 1: { parts: [], length: 0, most }, 2: { parts: [], length: 0, most: 1 << 20 } };
  let taken = 0, exports;
  const bytes = (place, length) => new Uint8Array(exports.memory.buffer, place >>> 0, length);
  const host = {
    word(index, to, room) {
      const word = given[index];
      if (word === undefined) return -1;
      if (word.length <= room) bytes(to, word.length).set(word);
      return word.length;
    },
    read(to, room) {
      const part = input.subarray(taken, taken + room);
      bytes(to, part.length).set(part);
      taken += part.length;
      return part.length;
    },
    write(number, from, length) {
      const stream = streams[number];
      if (stream === undefined || stream.length + length > stream.most) {
        if (stream) stream.cut = true;
        return -1;
      }
      stream.parts.push(bytes(from, length).slice());
      stream.length += length;
      return length;
    },
  };
  const whole = ({ parts, length }) => {
    const all = new Uint8Array(length);
    let at = 0;
    for (const part of parts) {
      all.set(part, at);
      at += part.length;
    }
    return all;
  };
  exports = new WebAssembly.Instance(module, { host }).exports;
  const status = exports.rv_main();
  return { status, output: whole(streams[1]), errors: whole(streams[2]), cut: streams[1].cut === true };
}
