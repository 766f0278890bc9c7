// The address holds the job, as long as it is not too long for that: so a link shares it, and going back or loading again loses nothing. One
// that is too long stands in the state of its place in the browser's history, to which going back leads as well.
// After #: example=NAME or job=DEFLATED, machines=DEFLATED, view, limit, from, cycles of a view, its switches, cycle, follow and path.
let exampleName = "", addressed = "", isAnother = false, isWritten = true, isAwaited = false;

// Another job takes the place of the one that stands here, which is then one step back: also where the address has it not, or not yet.
function another() {
  const isLong = addressed === TOO_LONG;
  // (a browser that was asked for an address too often refuses for a while)
  if (!isAnother && !isWritten) try { history.replaceState(stateNow(), "", TOO_LONG); addressed = TOO_LONG; } catch { /* as it stood last */ }
  if (!isAnother && isLong) note("The job before, too long for the address, is kept in this tab: going back one step (Alt+Left) leads to it.");
  [isAnother, isWritten] = [true, true];
}

const stateNow = () => ({ job: jobNow(), machines: furtherText(), words: optionWords().join("&") });

// What the address says beside the job.
function optionWords() {
  const words = currentView.name === "report" ? [] : ["view=" + currentView.name];
  if (limit() !== 100000) words.push("limit=" + limit());
  for (const option of currentView.options || []) {
    const { key, value } = optionOf(currentView, option);
    if (value !== option.value) words.push(key + "=" + (value === true ? 1 : value));
  }
  if (currentView.name === "steps" && seenCycle !== undefined) words.push("cycle=" + seenCycle, ...(followed === "" ? [] : ["follow=" + followed]));
  if (currentView.name === "steps" && marksPath) words.push("path=1");
  return words;
}

// The example that the job is, if it is one.
const exampleNow = () => (EXAMPLES[exampleName] !== undefined && isUnchanged(exampleName, jobNow()) ? exampleName : "");

async function addressOf() {
  const job = jobNow(), example = exampleNow(), words = [];
  byId("examples").value = example;
  document.title = "rv_sim: " + (example || "a job");
  words.push(example ? "example=" + example : "job=" + await deflated(joined(job)));
  if (!example && furtherText() !== "") words.push("machines=" + await deflated(furtherText()));
  return "#" + [...words, ...optionWords()].join("&");
}

const writeSoon = later(400, async () => {
  const address = await addressOf();
  // (an address that was changed by hand is read, and not written over)
  if (address === addressed || location.hash !== addressed) { [isAnother, isWritten, isAwaited] = [false, true, false]; return; }
  if (!putAddress(address.length <= KEPT_ADDRESS ? address : TOO_LONG)) setTimeout(writeAddress, 10000);
});

function writeAddress() { isAwaited = true; writeSoon(); }

// What the address does not say yet when the page is left, as by loading it again at once, waits in the tab's own store for the same address.
const LEFT = "rv_sim";

function keepLeft() {
  try {
    if (isAwaited) sessionStorage.setItem(LEFT, JSON.stringify({ address: location.hash, example: exampleNow(), isAnother, ...stateNow() }));
    else sessionStorage.removeItem(LEFT);
  } catch { /* a browser may have no store for a page */ }
}

function takeLeft() {
  let left = null;
  try { left = JSON.parse(sessionStorage.getItem(LEFT)); sessionStorage.removeItem(LEFT); } catch { /* as above */ }
  if (!left || left.address !== location.hash) return false;
  [addressed, isAnother, isWritten] = [location.hash, left.isAnother, false];
  takeState(left);
  return true;
}

// Answers whether the browser took the address: one that was asked too often refuses for a while (WebKit after 100 times in 10 seconds).
function putAddress(address) {
  try { history[isAnother ? "pushState" : "replaceState"](address === TOO_LONG ? stateNow() : null, "", address); } catch { return false; }
  [addressed, isAnother, isWritten, isAwaited] = [address, false, true, false];
  return true;
}

// WebKit lets a page write to the clipboard in the click alone, and takes there what comes later.
async function copyLater(link) {
  if (typeof ClipboardItem === "undefined") return navigator.clipboard.writeText(await link);
  const text = link.then((made) => new Blob([made], { type: "text/plain" }));
  return navigator.clipboard.write([new ClipboardItem({ "text/plain": text })]);
}

// (someone else has not the file)
const OF_A_FILE = location.protocol === "file:" ? " This page is a file: the link opens on this computer alone." : "";

async function copyLink() {
  const made = addressOf(), copying = copyLater(made.then((address) => {
    if (address.length > MOST_ADDRESS) throw new TooMuch(address.length);
    return location.href.split("#")[0] + address;
  })).then(() => true, () => false);
  const address = await made, size = counted(address.length, "character");
  if (address.length > MOST_ADDRESS) return refuse("The job is too long for a link (" + size + "): save it as a file.");
  const isThere = putAddress(address), holds = ": the job stands in it, in " + size + "." + OF_A_FILE;
  if (await copying) return say("The link is copied" + holds);
  say(isThere ? "Nothing was copied, but the link stands in the address of the page" + holds : "The browser took no link; try again in ten seconds.", !isThere);
}

// Reads the address: answers whether a job stood there. What is no job is refused, and said.
async function readAddress() {
  const text = location.hash.slice(1);
  [addressed, isAnother, isWritten] = [location.hash, false, true];
  refuse("");
  if (addressed === TOO_LONG) return readState();
  if (text.length > MOST_ADDRESS) {
    refuse("The address was refused: it has " + counted(text.length, "character") + ", and " + grouped(MOST_ADDRESS) + " are read.");
    return false;
  }
  const words = wordsIn(text);
  readOptions(words);
  const name = plainName(words.get("example") || "");
  if (name !== "") {
    if (Object.hasOwn(EXAMPLES, name)) { loadExample(name); return true; }
    refuse("There is no example \u201c" + name.slice(0, 60) + "\u201d.");
  }
  if (!words.has("job")) return false;
  try {
    const text = await inflated(words.get("job")), machines = words.has("machines") ? await inflated(words.get("machines")) : "";
    if (whyTooLong(text + machines) !== "") throw new TooMuch("it has " + whyTooLong(text + machines));
    takeJob(cut(text), machines);
    return true;
  } catch (error) {
    refuse("The job in the address was refused: " + (error instanceof TooMuch ? error.message : "it cannot be unpacked") + ".");
    return false;
  }
}

const wordsIn = (text) => new Map(text.split("&").map((word) => { const at = word.indexOf("="); return at < 0 ? [word, ""] : [word.slice(0, at), word.slice(at + 1)]; }));

function plainName(text) { try { return decodeURIComponent(text); } catch { return text; } }

// A job that is too long for the address, from the history of the tab.
function readState() {
  if (!history.state) { refuse("The job that stood here was too long for the address, and is not kept. Save such a job as a file."); return false; }
  takeState(history.state);
  return true;
}

function takeState({ job, machines, words = "", example = "" }) {
  readOptions(wordsIn(words));
  takeJob(job, machines, example);
}

function takeJob(job, machines, example = "") {
  exampleName = example;
  byId("examples").value = example;
  forget();
  setJob(job, machines);
}

// What the address does not say is as at first.
function readOptions(words) {
  const view = viewNamed(words.get("view") || "report");
  byId("limit").value = whole(words.get("limit") || "", 1, 1000000, 100000);
  for (const each of VIEWS) {
    for (const option of each.options || []) {
      const { key } = optionOf(each, option);
      chosen[key] = option.isSwitch ? words.get(key) === "1" : whole(words.get(key) || "", option.least, option.most, option.value);
    }
  }
  seenCycle = /^-?\d{1,7}$/.test(words.get("cycle") || "") ? words.get("cycle") : undefined;
  followed = /^\d{1,9}$/.test(words.get("follow") || "") ? words.get("follow") : "";
  marksPath = words.get("path") === "1";
  if (view) chooseView(view.name, true);
}

// A file, chosen or dropped.
async function openFile(file) {
  refuse("");
  const isGreat = file.size > 4 * MOST_TEXT, bytes = isGreat ? new ArrayBuffer(0) : await file.arrayBuffer().catch(() => undefined);
  if (bytes === undefined) return refuse("The file " + file.name + " cannot be read. A folder is no file.");
  const text = textOf(new Uint8Array(bytes)).replace(/^\ufeff/, "").replace(/\r\n?/g, "\n");
  const why = isGreat ? counted(file.size, "byte") + " (the page takes " + grouped(MOST_TEXT) + ")" : whyTooLong(text);
  if (text.includes("\0")) return refuse("The file " + file.name + " was refused: it is no text, since it has a zero byte.");
  if (why !== "") return refuse("The file " + file.name + " was refused: it has " + why + ".");
  another();
  if (text.includes("\ufffd")) note("The file " + file.name + " is not in UTF-8: what cannot be read stands as \ufffd.");
  exampleName = "";
  byId("examples").selectedIndex = 0;
  if (/\.toml$/i.test(file.name)) return setJob({ ...jobNow(), description: text });
  forget();
  if (/\.machines$/i.test(file.name)) { const both = cutComparison(text); setJob(both.job, both.machines); return chooseView("compare"); }
  setJob(cut(text), "");
}
