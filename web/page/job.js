// A job: the description of a machine, the arrivals of interrupts, and the program. It is always sent in three parts, so that each line of a
// fault has its place.
const PARTS = ["description", "arrivals", "assembly"];

const ended = (text) => (text === "" || text.endsWith("\n") ? text : text + "\n");

const joined = (job) => ended(job.description) + "%%\n" + ended(job.arrivals) + "%%\n" + job.assembly;

const sameJob = (a, b) => PARTS.every((part) => a[part] === b[part]);

// The first two lines %% cut a text into parts, as they do for the program.
function cut(text) {
  const lines = /^%%\r?(?:\n|$)/gm, ends = [];
  for (let found; ends.length < 2 && (found = lines.exec(text)); ) ends.push([found.index, lines.lastIndex]);
  if (ends.length === 0) return { description: "", arrivals: "", assembly: text };
  const description = text.slice(0, ends[0][0]);
  if (ends.length === 1) return { description, arrivals: "", assembly: text.slice(ends[0][1]) };
  return { description, arrivals: text.slice(ends[0][1], ends[1][0]), assembly: text.slice(ends[1][1]) };
}

// What `compare` reads, as a job and further machines: the first description is the job's.
function cutComparison(text) {
  const all = text.split(/^%%\r?\n/m);
  if (all.length < 2) return { job: cut(text), machines: "" };
  const job = { description: all[0], arrivals: "", assembly: all[all.length - 1] };
  const further = all.slice(1, -1);
  return { job, machines: further.map(ended).join("%%\n") + (further.at(-1) === "" ? "%%\n" : "") };
}

// Further machines as they stand, without a line %% after the last one: none, where nothing else stands there.
const furtherIn = (text) => (text.trim() === "" ? undefined : text.replace(/^%%\r?\n?$(?![^])/m, ""));

function comparison(job, machines) {
  const last = furtherIn(machines), further = last === undefined ? "" : ended(last) + "%%\n";
  return ended(job.description) + "%%\n" + further + job.assembly;
}

// The counts of a report, by the words before them.
function countsOf(report) {
  const counts = new Map();
  for (const line of report.split("\n", 40)) {
    const found = /^(stop|cycles|retired|traps|interrupts|cpi|longest_gap|busy|stall \w+) (.+)$/.exec(line);
    if (found) counts.set(found[1], found[2]);
  }
  return counts;
}
