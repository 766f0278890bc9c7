// A description as the form reads and writes it: which value a key has, and where that stands in the text. Whether the text is a legal
// description the program alone decides; this reads what it can, and says at which line it cannot go on.
class NotToml extends Error { constructor(at) { super("not TOML"); this.at = at; } }

class TomlReader {
  constructor(text) {
    Object.assign(this, { text, at: 0, values: new Map(), headers: new Map(), braces: new Map(), rootEnd: text.length, line: 0 });
    let table = "";
    try {
      while (this.skip(/[\s]*(?:#.*[\s]*)*/y), this.at < text.length) {
        if (text[this.at] === "[") table = this.header();
        else { this.assignment(table, this.at); this.endOfLine(); }
      }
    } catch (error) {
      if (!(error instanceof NotToml)) throw error;
      this.line = text.slice(0, error.at).split("\n").length;
    }
  }

  skip(pattern) {
    pattern.lastIndex = this.at;
    const found = pattern.exec(this.text);
    if (found) this.at = pattern.lastIndex;
    return found && found[0];
  }

  take(pattern) {
    const began = this.at, found = this.skip(pattern);
    if (found === null) throw new NotToml(began);
    return found;
  }

  endOfLine() { this.take(/[ \t]*(?:#.*)?(?:\r?\n|$)/y); }

  // A key in parts: `a.b`, where each part may stand in quotes.
  key() {
    const parts = [];
    do {
      const part = this.take(/[ \t]*(?:[\w-]+|"(?:\\.|[^"\\\n])*"|'[^'\n]*')[ \t]*/y).trim();
      parts.push(part.replace(/^["'](.*)["']$/, "$1"));
    } while (this.skip(/\./y));
    return parts.join(".");
  }

  header() {
    if (this.rootEnd === this.text.length) this.rootEnd = this.at;
    const opened = this.take(/\[\[?/y), name = this.key();
    this.take(opened.length === 2 ? /\]\]/y : /\]/y);
    this.endOfLine();
    this.headers.set(name, this.at);
    return name;
  }

  assignment(table, began) {
    const name = (table ? table + "." : "") + this.key();
    if (this.values.has(name)) throw new NotToml(began);
    this.take(/=[ \t]*/y);
    const from = this.at, value = this.value(name);
    this.values.set(name, { value, from, to: this.at, began });
  }

  value(name) {
    if (this.skip(/\{/y) !== null) {
      while (this.skip(/[ \t]*\}/y) === null) {
        this.assignment(name, this.at);
        if (this.skip(/[ \t]*,/y) === null) { this.take(/[ \t]*\}/y); break; }
      }
      this.braces.set(name, this.at - 1);
      return undefined;
    }
    if (this.skip(/\[/y) !== null) {
      while (this.skip(/(?:\s|#.*)*\]/y) === null) { this.skip(/(?:\s|#.*)*/y); this.value(name); this.skip(/(?:\s|#.*)*,/y); }
      return undefined;
    }
    return this.single();
  }

  single() {
    const raw = this.take(/"""[^]*?"""|'''[^]*?'''|"(?:\\.|[^"\\\n])*"|'[^'\n]*'|[+\-\w.:]+/y);
    if (raw === "true" || raw === "false") return raw === "true";
    if (/^["']/.test(raw)) return raw.replace(/^("""|'''|"|')([^]*)\1$/, "$2");
    const number = Number(raw.replace(/_/g, "").replace(/^\+/, ""));
    return Number.isInteger(number) ? number : raw;
  }
}

const readToml = (text) => new TomlReader(text);

const tomlText = (value) => (typeof value === "string" && !/^0x[0-9a-f]+$/i.test(value) ? '"' + value + '"' : String(value));

// The text with this key set to this value: at its place where it has one, else at the end of its table or of the keys without one.
function withKey(text, key, value) {
  const read = readToml(text), found = read.values.get(key), written = tomlText(value);
  if (found) return text.slice(0, found.from) + written + text.slice(found.to);
  const [table, name] = key.includes(".") ? key.split(".") : ["", key];
  const put = (at, line) => text.slice(0, at) + line + text.slice(at);
  if (table && read.headers.has(table)) return put(read.headers.get(table), name + " = " + written + "\n");
  if (table && read.braces.has(table)) {
    const at = read.braces.get(table), isEmpty = /\{\s*$/.test(text.slice(0, at));
    return put(at, (isEmpty ? "" : ", ") + name + " = " + written + " ").replace(/ +, /, ", ");
  }
  const before = text.slice(0, read.rootEnd), line = key + " = " + written + "\n";
  return before + (before === "" || before.endsWith("\n") ? "" : "\n") + line + text.slice(read.rootEnd);
}

// The text without this key: its line goes where nothing else stands on it.
function withoutKey(text, key) {
  const found = readToml(text).values.get(key);
  if (!found) return text;
  const from = text.lastIndexOf("\n", found.from) + 1, end = text.indexOf("\n", found.to), to = end < 0 ? text.length : end + 1;
  const isAlone = text.slice(from, found.began).trim() === "" && /^[ \t]*(#.*)?\r?\n?$/.test(text.slice(found.to, to));
  return isAlone ? text.slice(0, from) + text.slice(to) : text;
}
