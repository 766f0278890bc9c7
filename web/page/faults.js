// Why a job is refused: the fault's line, and what `explain` says of it. Each fault has its part, its line and, where a caret stands, its column.
const PLACE = /^line \d+ of the job, line (\d+) of its (description|arrivals|assembly)/;

// In a file a line %% stands between the parts of a job. In a part's own box it would move what follows into another part, and the program
// would name a line of that one: so the page refuses it where it stands.
const BOXES = { description: "Machine", arrivals: "Arrivals of interrupts", assembly: "Program" };

function separatorIn(job) {
  for (const part of PARTS) {
    const line = job[part].split("\n").findIndex((each) => /^%%\r?$/.test(each)) + 1;
    if (line === 0) continue;
    const errors = BOXES[part] + ", line " + line + ": a line %%";
    const advice = "In a file it stands between the parts of a job; here each part has a box: " + Object.values(BOXES).join(", ") + ". Open takes a file with all of them.";
    return { part, errors, text: errors + "\n" + advice, faults: [{ line, from: 0, to: 2 }] };
  }
  return undefined;
}

// The program shows a byte that is no sign of ASCII as a question mark, and its columns count bytes. The page shows letters and marks as they
// are, where they are as wide as others.
const shownByBytes = (text) => [...bytesOf(text)].map((byte) => (byte === 9 ? " " : byte < 32 || byte > 126 ? "?" : String.fromCharCode(byte))).join("");
const legible = (text) => text.replace(/\t/g, " ").replace(/[^ -~\p{Script=Latin}\p{Script=Greek}\p{Script=Cyrillic}\p{P}\p{Sm}\p{Sc}]/gu, "?");

class Refusal {
  constructor(errors, explanation, job) {
    this.errors = errors.trim();
    this.part = (/^error: (description|arrivals|assembly)/.exec(this.errors) || [])[1] || "assembly";
    this.faults = [];
    const lines = explanation.split("\n"), caret = lines.findIndex((line) => /^ +\^/.test(line));
    lines.forEach((line, k) => {
      const found = PLACE.exec(line);
      if (!found || found[2] !== this.part) return;
      const fault = { line: Number(found[1]) };
      if (caret === k + 2) [lines[k + 1], lines[caret]] = this.putColumns(fault, lines[k + 1], lines[caret], job[this.part].split("\n")[fault.line - 1] || "");
      this.faults.push(fault);
    });
    this.text = [this.errors, ...this.ownLines(lines.join("\n"))].join("\n");
    if (this.faults.length === 0) this.guess(job);
  }

  // What `explain` says, with the numbers that lines have in their box, and not in the job; what the fault's line says is not said again.
  ownLines(explanation) {
    const own = explanation.trimEnd().split("\n").map((line) => line.replace(PLACE, "line $1"));
    return own[0] === "" || (own[0].startsWith("line ") && this.errors.endsWith(own[0])) ? own.slice(1) : own;
  }

  // The shown line stands after four blanks; from the caret on the columns are those of the token. Answers both lines as they are to be seen.
  putColumns(fault, shown, caret, source) {
    const words = shown.slice(4), found = shownByBytes(source).indexOf(words.trimEnd()), at = Math.max(0, found);
    const column = (byte) => textOf(bytesOf(source).subarray(0, byte)).length, begin = column(at);
    fault.from = column(at + caret.indexOf("^") - 4);
    const token = /^(?:"(?:\\.|[^"\\])*"?|[^\s,()#]+|.)/.exec(source.slice(fault.from));
    fault.to = fault.from + (token ? token[0].length : 1);
    const seen = (from, to) => legible(source.slice(from, to)), blanks = " ".repeat(4 + [...seen(begin, fault.from)].length);
    return found < 0 ? [shown, caret] : ["    " + seen(begin, column(at + words.length)), blanks + "^"];
  }

  // Of a text that is no TOML the program names no line: the page looks for the first that its form cannot read.
  guess(job) {
    const line = (/^error: assembly line (\d+)/.exec(this.errors) || [])[1];
    if (line) this.faults = [{ line: Number(line) }];
    if (!/NotToml/.test(this.errors)) return;
    const read = readToml(job[this.part]).line;
    if (read === 0) return;
    this.faults = [{ line: read }];
    this.text += "\nThe form of this page can read no further than line " + read + ": " + job[this.part].split("\n")[read - 1].trim().slice(0, 80);
  }
}
