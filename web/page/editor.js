// An editor: a textarea, and behind it the lines that are seen, with their colours, numbers and faults. Only those are drawn, so that a text
// may be long; where a line is too long for that, the textarea shows its own text.
const LINE = 20;          // pixels, as in editor.css; more where the browser enlarges text alone
const LONGEST_LINE = 2000;
const MANY_LINES = 300;   // Chromium puts lines into a textarea one by one, which takes 17 s for 8,000: the page puts so many in itself
const MOST_PUTS = 20;     // and so often it takes them back

// What a key asks for: to take the last change back, or to do it again.
function historyKey({ ctrlKey, metaKey, altKey, shiftKey, key, code }) {
  if (altKey || !(ctrlKey || metaKey)) return "";
  const letter = (/^[ -~]$/.test(key) ? key : code.replace("Key", "")).toLowerCase();
  return letter === "z" && !shiftKey ? "historyUndo" : letter === "z" || (letter === "y" && !shiftKey) ? "historyRedo" : "";
}

class Editor {
  constructor(root, wordsOf, changed) {
    this.root = root;
    this.area = root.querySelector("textarea");
    this.wordsOf = wordsOf;
    this.numbers = element("div");
    this.probe = element("div", { className: "probe", textContent: "0" });
    this.gutter = element("div", { className: "numbers", "aria-hidden": "true" }, this.probe, this.numbers);
    this.behind = element("div", { className: "behind", "aria-hidden": "true" });
    this.faults = new Map();
    this.changed = changed;
    [this.done, this.undone] = [[], []];
    root.prepend(this.gutter);
    this.area.before(this.behind);
    this.area.maxLength = MOST_TEXT;
    this.area.addEventListener("input", (event) => { if (!/^history/.test(event.inputType)) this.undone = []; this.read(); changed(); });
    this.area.addEventListener("scroll", () => this.draw());
    this.area.addEventListener("paste", (event) => this.put(event, event.clipboardData, this.area.selectionStart, this.area.selectionEnd));
    this.area.addEventListener("drop", (event) => this.drop(event));
    for (const [name, is] of [["dragstart", true], ["dragend", false]]) this.area.addEventListener(name, () => { this.isDragged = is; });
    this.area.addEventListener("keydown", (event) => this.turnBack(event, historyKey(event)));
    this.area.addEventListener("beforeinput", (event) => this.turnBack(event, event.inputType));
    new ResizeObserver(() => this.draw()).observe(this.area);
    this.read();
  }

  // (In a textarea whose text ends with a line break, Chromium takes 17 s to select or to copy 8,000 lines: the last one stands apart, where
  // it ends no empty line.)
  get text() { const { value } = this.area; return this.isEnded && /[^\n]$/.test(value) ? value + "\n" : value; }

  set text(given) {
    const text = given.replace(/\r\n?/g, "\n");
    if (this.text === text) return;
    this.isEnded = /[^\n]\n$/.test(text);
    this.area.value = this.isEnded ? text.slice(0, -1) : text;
    this.read();
  }

  // Refuses what would come to a text that is too long.
  refuseLong(event, text) {
    const why = whyTooLong(text);
    if (why === "") return;
    event.preventDefault();
    refuse("A text was refused: with it there would be " + why + ".");
  }

  // Puts a text of many lines in the place of some of what stands here.
  put(event, data, from, to) {
    const { value, selectionStart, selectionEnd } = this.area, text = data.getData("text").replace(/\r\n?/g, "\n");
    const put = value.slice(0, from) + text + value.slice(to), before = this.text, after = this.isEnded && /[^\n]$/.test(put) ? put + "\n" : put;
    this.refuseLong(event, after);
    if (event.defaultPrevented || text.split("\n", MANY_LINES).length < MANY_LINES) return;
    event.preventDefault();
    this.done = [...this.done.slice(1 - MOST_PUTS), { before, selected: [selectionStart, selectionEnd], after, end: from + text.length }];
    this.undone = [];
    this.show(after, from + text.length);
  }

  // (what is dragged within the editor the browser moves; a file is the page's)
  drop(event) {
    if (event.dataTransfer.files.length > 0 || this.isDragged) return;
    const at = this.placeAt(event.clientX, event.clientY);
    this.put(event, event.dataTransfer, at, at);
  }

  // What the page put in itself the browser neither takes back nor does again.
  turnBack(event, kind) {
    const isBack = kind === "historyUndo", [from, to] = isBack ? [this.done, this.undone] : [this.undone, this.done], put = from.at(-1);
    if ((!isBack && kind !== "historyRedo") || !put || this.text !== (isBack ? put.after : put.before)) return;
    event.preventDefault();
    to.push(from.pop());
    if (isBack) this.show(put.before, ...put.selected);
    else this.show(put.after, put.end);
  }

  // Another text, with the cursor at a place of it or a part selected, whose end is seen.
  show(text, from, to = from) {
    this.text = text;
    this.area.focus();
    this.area.setSelectionRange(from, to);
    const bottom = this.area.value.slice(0, to).split("\n").length * this.lineHeight, { scrollTop, clientHeight } = this.area;
    if (bottom - this.lineHeight < scrollTop || bottom > scrollTop + clientHeight) this.area.scrollTop = bottom - clientHeight;
    this.changed();
  }

  // The place in the text that a point of the window shows: the lines have one height, and the letters one width.
  placeAt(x, y) {
    const box = this.area.getBoundingClientRect(), { scrollTop, scrollLeft } = this.area, row = Math.floor((y - box.top + scrollTop) / this.lineHeight);
    const above = this.lines.slice(0, Math.max(0, Math.min(row, this.lines.length - 1))), line = this.lines[above.length];
    const letters = (x - box.left - parseFloat(getComputedStyle(this.area).paddingLeft) + scrollLeft) / this.letterWidth;
    let at = 0, column = 0;
    for (const letter of line) {
      const end = letter === "\t" ? column - (column % 8) + 8 : column + 1;
      if (letters < (column + end) / 2) break;
      column = end;
      at += letter.length;
    }
    return above.reduce((sum, each) => sum + each.length + 1, at);
  }

  get letterWidth() {
    const range = document.createRange();
    range.selectNodeContents(this.probe);
    return range.getBoundingClientRect().width || 8;
  }

  get lineHeight() { return this.probe.getBoundingClientRect().height || LINE; }

  read() {
    this.lines = this.area.value.split("\n");
    this.mark([]);
  }

  // Marks lines that have a fault: { line, from, to }, where the columns may be missing.
  mark(faults) {
    this.faults = new Map(faults.map((fault) => [fault.line, fault]));
    this.root.classList.toggle("bad", faults.length > 0);
    this.area.setAttribute("aria-invalid", String(faults.length > 0));
    this.draw();
  }

  draw() {
    const { scrollTop, scrollLeft, clientHeight } = this.area, high = this.lineHeight;
    const first = Math.floor(scrollTop / high), last = Math.min(this.lines.length, first + Math.ceil(clientHeight / high) + 1);
    const seen = this.lines.slice(first, last);
    this.root.classList.toggle("plain", seen.some((line) => line.length > LONGEST_LINE));
    this.gutter.style.width = String(this.lines.length).length + 1 + "ch";
    this.numbers.replaceChildren(...seen.map((_, k) => this.number(first + k + 1)));
    this.behind.replaceChildren(...seen.map((line, k) => this.line(line, first + k + 1)));
    this.numbers.style.top = this.behind.style.top = first * high - scrollTop + "px";
    this.behind.style.left = -scrollLeft + "px";
  }

  number(line) { return element("div", { textContent: line, className: this.faults.has(line) ? "bad" : "" }); }

  line(text, line) {
    const fault = this.faults.get(line), made = element("div", { className: fault ? "bad" : "" });
    made.append("\u200b"); // (an empty line is as high as another)
    if (text.length > LONGEST_LINE) return made;
    let at = 0;
    for (const [kind, word] of this.wordsOf(text)) {
      const isBad = fault && fault.from !== undefined && at < fault.to && at + word.length > fault.from;
      if (kind === "" && !isBad) made.append(word);
      else made.append(element("span", { className: kind + (isBad ? " wrong" : ""), textContent: word }));
      at += word.length;
    }
    return made;
  }

  // Puts the cursor there, and shows it.
  goTo(line, column = 0) {
    let at = column;
    for (let k = 0; k < line - 1 && k < this.lines.length; k += 1) at += this.lines[k].length + 1;
    this.area.focus();
    this.area.setSelectionRange(at, at);
    this.area.scrollTop = Math.max(0, (line - 1) * this.lineHeight - this.area.clientHeight / 3);
  }
}
