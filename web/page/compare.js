// One program on several machines: the job's own first, and further ones, which stand in a text with a line %% between two.
const furtherText = () => editors.machines.text;
const comparedInput = (job) => comparison(job, furtherText());

const MOST_MACHINES = 64; // that the program compares, the job's own among them

function addMachines(texts) {
  const before = furtherIn(furtherText()), room = Math.max(0, MOST_MACHINES - machinesOf(jobNow(), furtherText()).length), added = texts.slice(0, room);
  if (added.length > 0) {
    editors.machines.text = (before === undefined ? "" : ended(before) + "%%\n") + added.map(ended).join("%%\n");
    jobChanged();
  }
  if (added.length < texts.length) refuse("Of " + counted(texts.length, "machine") + " " + added.length + " were added: " + MOST_MACHINES + " are compared at most, the job's own among them.");
}

// A machine for each value of a key, where each else is the job's own.
function addValues(key, values) {
  const description = editors.description.text.replace(/^# name:.*\n/, "");
  addMachines(values.map((value) => "# name: " + key + " = " + value + "\n" + withKey(description, key, value)));
}

// Values to begin with: a key's choices, or some around its default.
function usualValues(row) {
  if (row.choices) return row.choices;
  const unit = row.multiple || 1, most = row.most === null ? Infinity : row.most;
  const around = [0.25, 0.5, 1, 2, 4].map((times) => Math.min(most, Math.max(row.least, unit * Math.round((times * Number(row.default)) / unit))));
  return [...new Set(around)].map((number) => (row.isHex ? "0x" + number.toString(16) : String(number)));
}

// The program counts the descriptions, of which the job's own is the first.
function refusedMachine(errors) {
  const number = Number((/description (\d+)/.exec(errors) || [])[1]), text = machinesOf(jobNow(), furtherText())[number - 1];
  const name = (/^# name: *(.+)/.exec(text || "") || [])[1];
  return number > 1 ? errors + ". That is machine " + (number - 1) + " of the text above" + (name ? ": " + name : "") : errors;
}

function makeComparison() {
  const machines = byId("add-machine");
  for (const name of Object.keys(EXAMPLES).filter((each) => each.startsWith("machines/"))) machines.add(new Option(name.slice(9), name));
  machines.onchange = () => {
    const name = machines.value;
    machines.selectedIndex = 0;
    if (EXAMPLES[name]) addMachines([/^# name:/.test(EXAMPLES[name]) ? EXAMPLES[name] : "# name: " + name.slice(9) + "\n" + EXAMPLES[name]]);
  };
  for (const row of KEYS) byId("sweep-key").add(new Option(row.key));
  byId("sweep-key").value = "rob";
  byId("sweep-key").onchange = () => { byId("sweep-values").value = usualValues(KEYS.find((row) => row.key === byId("sweep-key").value)).join(", "); };
  const plain = (text) => text.replace(/^(["'])(.*)\1$/, "$2");
  const value = (text) => (/^-?\d+(\.\d+)?$/.test(text) ? Number(text) : /^(true|false)$/.test(text) ? text === "true" : plain(text));
  const values = () => byId("sweep-values").value.split(/[\s,]+/).filter(Boolean).map(value);
  byId("sweep").onclick = () => addValues(byId("sweep-key").value, values());
  byId("sweep-values").onkeydown = (event) => { if (event.key === "Enter" && !event.ctrlKey) byId("sweep").click(); };
  byId("no-machines").onclick = () => { if (furtherText() !== "") another(); editors.machines.text = ""; jobChanged(); };
}

function machinesOf(job, machines) {
  const further = furtherIn(machines);
  return [job.description, ...(further === undefined ? [] : further.split(/^%%\r?\n/m))];
}

// What a machine without a name has that not all of them have.
function ownValues(all, at) {
  const own = all[at];
  if (!own) return "machine " + (at + 1);
  const keys = [...own.keys()].filter((key) => all.some((other) => other.get(key) !== own.get(key)));
  return keys.length === 0 ? "the job's machine" : keys.slice(0, 3).map((key) => key + " " + own.get(key)).join(", ") + (keys.length > 3 ? ", .." : "");
}

const NO_MACHINES = "Add machines above: by name, or one for each value of a key. They stand in the text there, a line %\u2060% between two.";

function showComparison({ output }) {
  const lines = textOf(output).trimEnd().split("\n"), names = lines[0].split("\t");
  const cycles = names.indexOf("cycles"), first = Number((lines[1] || "").split("\t")[cycles]);
  const most = Math.max(1, ...lines.slice(1).map((line) => Number(line.split("\t")[cycles]) || 0));
  const name = names.indexOf("name"), number = names.indexOf("number");
  const all = machinesOf(jobNow(), furtherText()).map((text) => valuesOf(text, KEYS));
  const label = (cells) => (name >= 0 && cells[name] !== "-" ? cells[name] : ownValues(all, Number(cells[number]) - 1));
  const rows = lines.slice(1).map((line) => line.split("\t")).map((cells) => {
    const count = Number(cells[cycles]);
    const bar = element("span", { className: "bar less", style: "width: " + (100 * count) / most + "%" });
    return [label(cells), element("span", { className: "by" }, bar), grouped(count), count === first ? "" : signed(count - first)];
  });
  const bars = sheet(["", "", "cycles", "by"], rows, "Cycles of each machine");
  bars.classList.add("bars");
  const cell = (textContent, _, className) => element("td", { className, textContent });
  const note = (textContent) => element("p", { className: "note", textContent });
  byId("shown").append(bars, element("h3", { textContent: "All counts" }), tableOf(lines, cell));
  if (lines.length < 3) byId("shown").prepend(note(NO_MACHINES));
  if (editors.arrivals.text.trim() !== "") byId("shown").append(note("A comparison takes no arrivals."));
}
