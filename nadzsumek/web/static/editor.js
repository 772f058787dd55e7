"use strict";
// The editor: a plain field for text, and below it the same text in colours, with what is wrong marked. So keys, undo, spoken text and
// phones work as in any field.

const WORDS = new Set("ALT AND ANY AFTER BITAND BITOR BITNOT CASE ELSE FALSE FOR FUNCTION IF INT16 IS MINUS MOSTNEG MOSTPOS NOT OF OR PAR PLACE AT PLUS PRI PROC RESULT RETYPES SEQ SIZE SKIP STOP TIMES TRUE VAL VALOF WHILE".split(" "));
const TYPES = new Set(["INT", "BYTE", "BOOL", "CHAN"]);
const PIECES = {
  occ: /(--.*)|("(?:\*.|[^"*])*"?)|('(?:\*.|[^'*])+')|(#[0-9A-Fa-f]+|\b\d+\b)|([A-Za-z][A-Za-z0-9.]*)|(:=|[!?&:;])|(\s+|.)/g,
  s: /(--.*)|("[^"]*"?)|('[^']*'?)|(#[0-9A-Fa-f]+|-?\b\d+\b)|([A-Za-z_][\w.]*:?)|([,+=])|(\s+|.)/g,
};

function kindOf(found, language, isFirst) {
  if (found[1]) return "remark";
  if (found[2] || found[3]) return "letters";
  if (found[4]) return "number";
  if (found[5] && language === "occ") return WORDS.has(found[5]) ? "word" : TYPES.has(found[5]) ? "type" : "";
  if (found[5]) return found[5].endsWith(":") ? "type" : isFirst ? "word" : "";
  return found[6] ? "sign" : "";
}

// The pieces of a line, each with its kind and its place.
function piecesOf(line, language) {
  let isFirst = true;
  return [...line.matchAll(PIECES[language])].map((found) => {
    const kind = kindOf(found, language, isFirst);
    if (found[5] && !found[5].endsWith(":")) isFirst = false;
    return { text: found[0], at: found.index, kind };
  });
}

// A line in colours; a mistake is marked from its column to the end of the word there.
function lineShown(line, language, mistake) {
  const row = made("div");
  let isMarked = false;
  for (const it of piecesOf(line, language)) {
    const isWrong = mistake && !isMarked && mistake.column - 1 < it.at + it.text.length && it.text.trim();
    isMarked = isMarked || isWrong;
    row.append(it.kind || isWrong ? made("span", { class: `${it.kind}${isWrong ? " mistake" : ""}`, text: it.text }) : it.text);
  }
  if (mistake && !isMarked) row.append(made("span", { class: "mistake", text: "  " }));
  row.append("\n");
  return row;
}

class Editor {
  constructor(changed) {
    this.field = $("text");
    this.colours = $("colours");
    this.numbers = $("numbers");
    this.lines = [];
    this.mistakes = {};
    this.marks = {};
    this.field.oninput = () => {
      this.marks = {};
      this.show();
      changed();
    };
    this.field.onscroll = () => this.scroll();
    this.field.onkeydown = (event) => this.key(event);
  }

  get text() {
    return this.field.value;
  }

  put(text) {
    this.field.value = text;
    this.mistakes = {};
    this.marks = {};
    this.show();
  }

  // Enter goes on where the line before begins, and deeper below a word that wants it.
  key(event) {
    if (event.key !== "Enter" || event.ctrlKey || event.shiftKey || event.altKey || event.isComposing) return;
    const line = this.text.slice(0, this.field.selectionStart).split("\n").pop();
    const deeper = $("kind").value === "occ" && /^\s*(SEQ|PAR|ALT|IF|PRI ALT|WHILE\b.*|PROC\b.*|.*\?\s*\w+\s*$(?=x))\s*$/.test(line);
    event.preventDefault();
    document.execCommand("insertText", false, `\n${/^\s*/.exec(line)[0]}${deeper ? "  " : ""}`);
  }

  scroll() {
    this.colours.scrollTop = this.numbers.scrollTop = this.field.scrollTop;
    this.colours.scrollLeft = this.field.scrollLeft;
  }

  // Shows again what has changed, line by line.
  show() {
    const language = $("kind").value, lines = this.text.split("\n");
    const keys = lines.map((line, at) => JSON.stringify([line, language, this.mistakes[at + 1] ?? null]));
    const rows = [...this.colours.children];
    keys.forEach((key, at) => {
      if (this.lines[at] === key && rows[at]) return;
      const row = lineShown(lines[at], language, this.mistakes[at + 1]);
      if (rows[at]) rows[at].replaceWith(row);
      else this.colours.append(row);
    });
    rows.slice(keys.length).forEach((it) => it.remove());
    this.lines = keys;
    this.numbers.replaceChildren(...lines.map((_, at) => made("span", { class: this.mistakes[at + 1] ? "wrong" : this.marks[at + 1] ?? "", text: `${at + 1}\n` })));
    this.scroll();
  }

  mark(mistakes) {
    this.mistakes = {};
    for (const it of mistakes) if (it.line) this.mistakes[it.line] ??= { column: it.column };
    this.show();
  }

  goTo(line, column = 1) {
    const before = this.text.split("\n").slice(0, line - 1).join("\n").length + (line > 1 ? 1 : 0);
    this.field.focus();
    this.field.setSelectionRange(before + column - 1, before + column - 1);
    this.field.scrollTop = Math.max(0, (line - 8) * 20);
  }
}
