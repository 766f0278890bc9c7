// A lecture: a script of stops, and a quiz on what the next cycle does.

// The stops: a line for each, or `|` between them in the address: a cycle, the number of the followed instruction after `#` (may be left
// out), and a sentence.
function readStops(text) {
  const found = text.split(/[\n|]/).map((line) => /^\s*([0-9]+)\s*(?:#([0-9]+))?\s*(.*)$/.exec(line)).filter((each) => each);
  return found.map(([, cycle, followed, sentence]) => ({ cycle: Number(cycle), followed: followed === undefined ? undefined : Number(followed), sentence: sentence.trim() }));
}

const lecture = { stops: [], at: -1 };

function goToStop(way) {
  const { stops } = lecture, next = lecture.at + way;
  if (!stops.length) return say("This page has no stops: its address may give them, as in #notes=3 %230 The division issues.|8 It is broadcast.");
  if (next < 0 || next >= stops.length) return say(way > 0 ? "This is the last stop." : "This is the first stop.");
  lecture.at = next;
  const { cycle, followed } = stops[next];
  view.followed = run.table[followed] ? followed : undefined;
  go(cycle - run.first + 1);
  showStop();
}

function showStop() {
  const stop = lecture.stops[lecture.at];
  byId("stop").hidden = !stop;
  if (stop) note("stop", lecture.at + 1 + " of " + lecture.stops.length + ", cycle " + stop.cycle + ": " + stop.sentence);
}

// The stop at which an address stands, so that a page that is loaded anew goes on from there.
function findStop(cycle, followed) {
  lecture.at = lecture.stops.findIndex((stop) => stop.cycle === cycle && stop.followed === followed);
  showStop();
}

// The quiz: the next cycle is hidden until Enter. Each question is made from the states: its text, and its answer as words.
const quiz = { asked: 0, right: 0, question: undefined, answered: false };

function quizCount() { return quiz.right + " of " + quiz.asked + " right"; }

function numbersWords(numbers) { return numbers.length ? numbers.join(" ") : "none"; }

function questionAt(place) {
  const here = run.places[place + 1], now = run.at(place), next = run.at(place + 1), cycle = run.cycleOf(place + 1), made = [];
  const retired = here.ended.filter((each) => each.end === "retired").map((each) => each.number);
  const written = next.state.registers.findIndex((value, register) => value !== now.state.registers[register]);
  const numbers = " (numbers, or none)";
  if (now.state.reorder_buffer.some((entry) => entry.issued === undefined)) made.push({ text: "Which instructions issue in cycle " + cycle + "?" + numbers, answer: numbersWords(here.phases.issue) });
  if (written > 0) made.push({ text: "What does " + registerName(written) + " hold after cycle " + cycle + "? (hexadecimal)", answer: hex(next.state.registers[written]), isWord: true });
  if (now.state.reorder_buffer.length) made.push({ text: "Which entries of the reorder buffer retire in cycle " + cycle + "?" + numbers, answer: numbersWords(retired) });
  if (now.state.reorder_buffer.some(isRunning)) made.push({ text: "Whose results are broadcast in cycle " + cycle + "?" + numbers, answer: numbersWords(here.phases.broadcast) });
  if (now.state.fetch_buffer.length) made.push({ text: "Which instructions are dispatched in cycle " + cycle + "?" + numbers, answer: numbersWords(here.phases.dispatch) });
  if (!made.length) made.push({ text: "Which instructions are fetched in cycle " + cycle + "?" + numbers, answer: numbersWords(here.phases.fetch) });
  return made[place % made.length];
}

function isAnswer(question, text) {
  if (question.isWord) return /^(0x)?[0-9a-f]{1,8}$/i.test(text) && parseInt(text.replace(/^0x/i, ""), 16) === parseInt(question.answer, 16);
  const said = (text.match(/[0-9]+/g) || []).map(Number).sort((a, b) => a - b).join(" ");
  return said === "" ? question.answer === "none" && /^(none|-|no)$/i.test(text) : said === question.answer;
}

function turnQuiz() {
  const count = quizCount();
  settings.quiz = !settings.quiz;
  byId("quiz").hidden = !settings.quiz;
  Object.assign(quiz, { asked: 0, right: 0 });
  showPanels();
  showLegend();
  sizePicture(run);
  show();
  if (settings.quiz) { ask(); return byId("answer").focus(); }
  document.activeElement.blur();
  say("Quiz: " + count + ".");
}

// Asks what the cycle after the cursor's does, however the cursor came there.
function ask() {
  if (view.place >= lastPlace) {
    note("question", "The page ends here: " + quizCount() + ".");
    quiz.question = undefined;
    return;
  }
  Object.assign(quiz, { question: questionAt(view.place), answered: false });
  note("question", quiz.question.text);
  byId("answer").value = "";
  note("verdict", quizCount());
}

// Enter: the first time it answers, the second time the next cycle is shown, with its question.
function answer() {
  if (!quiz.question) return;
  if (quiz.answered) return go(view.place + 1);
  const right = isAnswer(quiz.question, byId("answer").value.trim());
  Object.assign(quiz, { answered: true, asked: quiz.asked + 1, right: quiz.right + (right ? 1 : 0) });
  note("verdict", (right ? "Right" : "No: " + quiz.question.answer) + ". " + quizCount() + ". Enter: the next cycle.");
}
