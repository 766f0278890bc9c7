// The worker: one call of the program after another. Each call has an instance of its own, so nothing of one is left for the next.
let program;
onmessage = (event) => {
  const { id, module, words, input, most } = event.data;
  if (module) { program = module; return; }
  const began = performance.now();
  try {
    const { status, output, errors, cut } = callProgram(program, words, input, most);
    postMessage({ id, status, output, errors, cut, ms: performance.now() - began }, [output.buffer, errors.buffer]);
  } catch (error) {
    postMessage({ id, failed: String(error), ms: performance.now() - began });
  }
};
