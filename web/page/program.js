// Calls of the program in a worker. A call that is stopped, or takes too long, ends with its worker, and leaves nothing.
const MOST_OUTPUT = 64 * 1024 * 1024;
const MOST_SECONDS = 60;

class Caller {
  constructor(module) { this.module = module; this.calls = 0; this.begin(); }

  begin() {
    this.waiting = new Map();
    const url = URL.createObjectURL(new Blob([byId("worker").textContent], { type: "text/javascript" }));
    this.worker = new Worker(url);
    this.worker.onmessage = ({ data }) => this.answer(data.id, data);
    this.worker.onerror = (event) => { event.preventDefault(); this.end("failed", event.message || "the worker failed"); };
    this.worker.postMessage({ module: this.module });
    URL.revokeObjectURL(url);
  }

  answer(id, made) {
    const each = this.waiting.get(id);
    this.waiting.delete(id);
    if (!each) return;
    clearTimeout(each.timer);
    each.tell(made);
  }

  // Ends what is under way: all who wait get this name.
  end(name, why) {
    this.worker.terminate();
    const waiting = this.waiting;
    this.begin();
    for (const each of waiting.values()) { clearTimeout(each.timer); each.tell({ [name]: why || true }); }
  }

  stop() { if (this.waiting.size > 0) this.end("stopped"); }

  // What the program answers: { status, output, errors, cut, ms }, or { stopped }, { late } or { failed }.
  call(words, input, seconds = MOST_SECONDS) {
    const id = (this.calls += 1);
    return new Promise((tell) => {
      const timer = setTimeout(() => this.end("late", seconds), seconds * 1000);
      this.waiting.set(id, { tell, timer });
      this.worker.postMessage({ id, words, input: bytesOf(input), most: MOST_OUTPUT });
    });
  }
}

// What a call that has no whole answer came to, in a sentence; nothing where it has one.
function trouble(made) {
  if (made.stopped) return "Stopped; nothing of the run is left.";
  if (made.late) return "The call took more than " + counted(made.late, "second") + " and was stopped: take fewer cycles.";
  if (made.failed) return "The browser could not run it: " + made.failed;
  if (made.cut) return "The output has more than " + MOST_OUTPUT / (1 << 20) + " MiB, and was cut there: take fewer cycles.";
  if (made.status === 5) return "Out of memory: the browser gave the program no more.";
  if (made.status === 4 || made.status === 2) return "status " + made.status + ": " + textOf(made.errors).trim();
  return "";
}
