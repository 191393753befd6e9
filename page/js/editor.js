// A text with line numbers and colours, and what is said of its lines: CodeMirror, from Debian, put in when the page is built.
import { element } from "./table.js";

const { CodeMirror } = globalThis;
const WORDS = "insert remove move change cable sink caps floor budget end show expect lose";
const KINDS = "attach detach demand damage get_source get_sink transcript contracts faults margins " +
  "none ack nak busy silent pd plain greedy rev2 rev3 drop";

/** Edit scripts: the first word, words of the grammar, numbers and comments. */
CodeMirror.defineMode("edits", () => {
  const first = new Set(WORDS.split(" ")), others = new Set(KINDS.split(" "));
  return {
    startState: () => ({ first: true }),
    token(stream, state) {
      if (stream.sol()) state.first = true;
      if (stream.eatSpace()) return null;
      if (state.first && stream.peek() === "#") return stream.skipToEnd(), "comment";
      const word = stream.match(/^[^\s]+/)[0], isFirst = state.first;
      state.first = false;
      if (/^\d+$/.test(word)) return "number";
      if (isFirst && first.has(word)) return "keyword";
      return others.has(word) ? "atom" : "variable";
    },
  };
});

export class Editor {
  constructor(host, mode, label, changed) {
    this.code = CodeMirror(host, {
      mode, theme: "page", lineNumbers: true, lineWrapping: true, inputStyle: "contenteditable", tabSize: 2, viewportMargin: 20,
      screenReaderLabel: label,
      extraKeys: { "Ctrl-Z": false, "Cmd-Z": false, "Ctrl-Y": false, "Shift-Ctrl-Z": false, "Shift-Cmd-Z": false, Tab: false,
        "Shift-Tab": false },
    });
    const field = this.code.getInputField();
    field.setAttribute("role", "textbox");
    field.setAttribute("aria-multiline", "true");
    this.said = [];
    this.code.on("change", (_, change) => change.origin !== "setValue" && change.origin !== "state" && changed());
  }

  get text() {
    return this.code.getValue();
  }

  /** Puts another text in the place of this one, changing only what differs, so that cursor and place stay. */
  set text(text) {
    const { code } = this, old = code.getValue();
    if (old === text) return;
    let begin = 0, end = 0;
    const most = Math.min(old.length, text.length);
    while (begin < most && old[begin] === text[begin]) begin++;
    while (end < most - begin && old[old.length - 1 - end] === text[text.length - 1 - end]) end++;
    code.replaceRange(text.slice(begin, text.length - end), code.posFromIndex(begin), code.posFromIndex(old.length - end), "state");
  }

  get lines() {
    return this.code.lineCount();
  }

  lineText(line) {
    return this.code.getLine(line);
  }

  /** Puts words behind lines, in place of what was said before. `said`: line from 0, words, and whether it is a warning. */
  say(said) {
    const { code } = this;
    code.operation(() => {
      for (const { mark, handle, name } of this.said) {
        mark.clear();
        code.removeLineClass(handle, "background", name);
      }
      this.said = said.slice(0, 60).filter(({ line }) => line >= 0 && line < this.lines).map(({ line, words, warns }) => {
        const name = warns ? "warned-line" : "refused-line", widget = element("span", { class: `said ${warns ? "warned" : ""}`, words });
        const handle = code.addLineClass(line, "background", name);
        return { mark: code.setBookmark({ line, ch: this.lineText(line).length }, { widget, insertLeft: true }), handle, name };
      });
    });
  }

  /** Goes to a line. */
  go(line) {
    this.code.setCursor({ line, ch: 0 });
    this.code.scrollIntoView({ line, ch: 0 }, 80);
    this.code.focus();
  }

  refresh() {
    this.code.refresh();
  }
}
