// A call of the program. An engine frees the memory of calls that ended when it likes; where it has none for another call, that one is made
// once more a second later.
async function callOnceFree(module, words, input) {
  try {
    return callProgram(module, words, input, 1 << 28);
  } catch (failed) {
    if (!/Cannot allocate Wasm memory/.test(failed.message)) throw failed;
    await new Promise((done) => setTimeout(done, 1000));
    return callProgram(module, words, input, 1 << 28);
  }
}

// Does each case of a part by the module, and answers those that do not end as the program does: in a worker of a browser, and in Node.
async function differing(module, jobs, cases) {
  const found = [];
  for (const { name, words, job, status, output, errors } of cases) {
    try {
      const ended = await callOnceFree(module, words, jobs[job]);
      const digest = new Uint8Array(await crypto.subtle.digest("SHA-256", ended.output));
      const hex = Array.from(digest, (byte) => byte.toString(16).padStart(2, "0")).join("");
      const said = new TextDecoder("latin1").decode(ended.errors);
      if (ended.status !== status || hex !== output || said !== errors) found.push(`${name}: status ${ended.status}, ${ended.output.length} bytes, ${said.trim()}`);
    } catch (failed) {
      found.push(`${name}: ${failed}`);
    }
  }
  return found;
}

const bytesOf = (text) => Uint8Array.from(atob(text), (letter) => letter.charCodeAt(0));
