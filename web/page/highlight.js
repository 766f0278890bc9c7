// Which words of a line are what, for the colours of the editor: pairs of a class and a text. It decides nothing; the program does.
const REGISTER = /^(x([12]?\d|3[01])|zero|ra|sp|gp|tp|fp|t[0-6]|s\d|s1[01]|a[0-7])$/;
const WORDS = /(#.*)|("(?:\\.|[^"\\])*"?)|([A-Za-z_.$][\w.$]*)(\s*:)?|(-?(?:0x[0-9a-fA-F]+|0b[01]+|\d+)\b)|(\s+)|([^])/g;

function assemblyWords(line) {
  const words = [];
  let isFirst = true;
  for (const [all, comment, string, name, colon, number] of line.matchAll(WORDS)) {
    if (comment !== undefined) words.push(["comment", all]);
    else if (string !== undefined) words.push(["string", all]);
    else if (name !== undefined && colon !== undefined) words.push(["label", all]);
    else if (name !== undefined && isFirst) { words.push([name.startsWith(".") ? "directive" : "mnemonic", all]); isFirst = false; }
    else if (name !== undefined) words.push([REGISTER.test(name) ? "register" : "name", all]);
    else words.push([number === undefined ? "" : "number", all]);
  }
  return words;
}

const TOML_WORDS = /(#.*)|("(?:\\.|[^"\\])*"?|'[^']*'?)|([A-Za-z_][\w.-]*)(?=\s*(?:\.\s*[\w.-]+\s*)*=)|(\[\[?[^\]#]*\]?\]?)|(true|false|[+-]?\d\w*)|(\s+|[^])/g;

function tomlWords(line) {
  const words = [];
  for (const [all, comment, string, key, table, value] of line.matchAll(TOML_WORDS)) {
    const kind = comment !== undefined ? "comment" : string !== undefined ? "string" : key !== undefined ? "mnemonic" : table !== undefined ? "label" : value !== undefined ? "number" : "";
    words.push([kind, all]);
  }
  return words;
}

const MARKS = [["%%", "directive"]];
const machinesWords = (line) => (line.trimEnd() === MARKS[0][0] ? [[MARKS[0][1], line]] : tomlWords(line));
