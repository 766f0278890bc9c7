// What happens when the job changes: it is checked while one types, run, and shown. A later change ends what an earlier one began.
const PROBE = 20000; // cycles of a first call, the slowest of a browser, by which the time of a long run is estimated
let runner, checker, turn = 0, results = new Map(), isStale = false;

// Puts the text of a refusal into its box. The line at fault and the caret below it are not wrapped, so that it stands below the token; they
// are scrolled to it.
function fillBox(box, text) {
  const [pointed] = /^ {4}.*\n +\^\n?/m.exec(text) || [""], [before, ...after] = pointed ? text.split(pointed) : [text];
  const lines = element("span", { className: "pointed", tabIndex: 0, role: "group", "aria-label": "the line at fault", textContent: pointed }), [line, caret] = pointed.split("\n");
  box.replaceChildren(before, ...(pointed ? [lines, after.join(pointed)] : []));
  if (pointed) lines.scrollLeft = (lines.scrollWidth * caret.length) / Math.max(line.length, caret.length) - lines.clientWidth / 2;
}

function showFault(refusal) {
  for (const part of PARTS) {
    const box = byId("fault-" + part), isHere = refusal !== undefined && refusal.part === part;
    box.hidden = !isHere;
    fillBox(box, isHere ? refusal.text : "");
    editors[part].mark(isHere ? refusal.faults : []);
  }
  const key = refusal && (/^error: description: \w+ (\S+)/.exec(refusal.errors) || [])[1];
  for (const [name, { field }] of form.fields) field.setAttribute("aria-invalid", String(name === key));
  if (refusal && refusal.part === "arrivals") byId("arrivals").open = true;
}

// Asks the program whether it takes the job; answers so.
async function isTaken(job) {
  const misplaced = separatorIn(job);
  if (misplaced) return refuseJob(misplaced);
  const made = await checker.call(["explain", "--limit", "1"], joined(job), 10);
  if (made.stopped || !sameJob(job, jobNow())) return false;
  const why = trouble(made);
  if (why !== "") { showFault(undefined); say(why, true); return false; }
  const refusal = made.status === 1 ? new Refusal(textOf(made.errors), textOf(made.output), job) : undefined;
  if (refusal) return refuseJob(refusal);
  showFault(undefined);
  return true;
}

function refuseJob(refusal) {
  showFault(refusal);
  say("Refused: " + refusal.errors.replace(/^error: /, "") + ".", true);
  return false;
}

// (a screen reader may read nothing within what is busy: the line that says how a run goes stands apart)
function setBusy(isBusy) {
  if (!isBusy && document.activeElement === byId("stop")) byId("run").focus(); // (a button that is disabled loses the focus)
  byId("stop").disabled = !isBusy;
  byId("panel").setAttribute("aria-busy", String(isBusy));
  if (!isBusy) expectFor(0);
}

// A bar for what will take longer than a moment.
let ticking;
function expectFor(ms) {
  clearInterval(ticking);
  const bar = byId("progress"), began = performance.now();
  bar.hidden = ms < 300;
  bar.value = 0;
  if (ms >= 300) ticking = setInterval(() => { bar.value = Math.min(0.98, (performance.now() - began) / ms); }, 100);
}

// A run up to the limit. A long one is begun by a short one, which is all where the program ends in it.
async function wholeRun(text) {
  const most = limit();
  if (most <= PROBE) return runner.call(["run", "--limit", String(most)], text);
  const first = await runner.call(["run", "--limit", String(PROBE)], text);
  if (first.status !== 0 || countsOf(textOf(first.output.subarray(0, 400))).get("stop") !== "limit") return first;
  const expected = (first.ms * most) / PROBE;
  expectFor(expected);
  if (expected >= 300) say("Running up to " + counted(most, "cycle") + ", at most about " + Math.ceil(expected / 1000) + " s");
  return runner.call(["run", "--limit", String(most)], text);
}

function setStale(on) {
  isStale = on;
  byId("result").classList.toggle("stale", on);
}

// What one does with a run that was cut off: asks why, or lets it go on up to the greatest limit.
function waysOn() {
  const button = (textContent, onclick) => element("button", { type: "button", className: "link", textContent, onclick });
  const why = button("why?", () => openTab("explain")), further = button("up to " + grouped(MOST_CYCLES), () => takeLimit(MOST_CYCLES));
  return [" ", why, ...(limit() < MOST_CYCLES ? [" ", further] : [])];
}

function showSummary(report, ms) {
  const counts = countsOf(report), stop = counts.get("stop");
  const isCut = stop === "limit", why = stop === "breakpoint" ? "" : isCut ? "cut off at " + counted(Number(counts.get("cycles")), "cycle") : "stop " + stop;
  byId("summary").replaceChildren(
    element("b", { textContent: grouped(counts.get("cycles")) }), " cycles ", element("b", { textContent: grouped(counts.get("retired")) }), " retired ",
    element("b", { textContent: counts.get("cpi") }), " CPI", ...(why ? [" ", element("em", { textContent: why })] : []), ...(isCut ? waysOn() : []));
  byId("changed").textContent = changeText();
  sayDone(ms);
}

const sayDone = (ms) => say("Done in " + Math.max(1, Math.round(ms)) + " ms.");

// Runs the job, and shows it by the chosen tab. While one types and nothing is to run by itself, it is checked alone.
async function run(isTyped) {
  const mine = (turn += 1), job = jobNow(), text = joined(job);
  runner.stop();
  checker.stop();
  setBusy(true);
  setStale(true);
  const isGood = await isTaken(job);
  if (mine !== turn) return;
  if (!isGood || (isTyped && !byId("auto").checked)) {
    setBusy(false);
    showNothing();
    if (isGood) say("The program takes the job. Run it to see it.");
    return;
  }
  const key = keyOf(wordsOf(viewNamed("report")), text), made = await wholeRun(text), why = trouble(made);
  if (mine !== turn) return;
  if (why !== "" || made.status === 1) {
    say(why || textOf(made.errors).trim(), true);
    return setBusy(false);
  }
  results = new Map([[key, made]]);
  remember(job, textOf(made.output));
  setStale(false);
  showSummary(textOf(made.output), made.ms);
  await showView(mine);
}

const keyOf = (words, text) => words.join(" ") + "\n" + text;

// A bar that says of no time how much of it is over: how long a tab's command takes is not known.
function awaitTab(view) {
  byId("progress").hidden = false;
  byId("progress").removeAttribute("value");
  say("Running " + view.title + ", for at most " + MOST_SECONDS + " s");
}

// What the chosen tab's command prints of the job; kept until the job changes.
async function resultOf(view, mine) {
  const words = wordsOf(view), text = view.input ? view.input(jobNow()) : joined(jobNow()), key = keyOf(words, text);
  if (results.has(key)) return results.get(key);
  setBusy(true);
  const waiting = setTimeout(() => { if (mine === turn) awaitTab(view); }, 300), made = await runner.call(words, text);
  clearTimeout(waiting);
  if (mine === turn) setBusy(false);
  if (made.status !== undefined && !made.cut) results.set(key, made);
  return made;
}

// Where nothing is shown yet, and the job does not run, as one that is refused.
function showNothing() {
  if (byId("shown").firstChild || byId("panel").getAttribute("aria-busy") === "true") return;
  byId("shown").append(element("p", { className: "note", textContent: "Nothing to show: the job as it stands has not run." }));
}

// Shows the chosen tab. While a job is run it waits for that; a call for another tab is ended.
async function showView(given) {
  const view = currentView;
  if (runs.now === undefined || isStale) return showNothing();
  if (given === undefined) runner.stop();
  const mine = given === undefined ? (turn += 1) : given;
  const made = await resultOf(view, mine);
  if (mine !== turn || view !== currentView) return;
  clearShown();
  setBusy(false);
  const why = trouble(made) || (made.status === 1 ? (view.refused || String)(textOf(made.errors).trim()) : "");
  if (why !== "") { byId("shown").append(element("p", { className: "note fault", textContent: why })); say(why, true); }
  else sayDone(made.ms);
  if (why === "" || made.cut) await view.show(made);
  document.documentElement.dataset.shown = view.name;
  document.documentElement.dataset.turn = mine;
}

// Of a job that is refused there is nothing to save, though what it was before may still be shown.
async function saveView() {
  const view = currentView, misplaced = separatorIn(jobNow()), made = misplaced ? { status: 1 } : await resultOf(view, turn);
  if (made.output && made.status !== 1) return save(fileOf(view), made.output);
  say("Nothing was saved: " + (trouble(made) || (misplaced ? misplaced.errors : textOf(made.errors).trim().replace(/^error: /, ""))), true);
}
