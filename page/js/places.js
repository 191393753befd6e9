// Where in a text stands what `explain` speaks of. It tells the table of a scenario's file by its kind and its place among those of its
// kind, and its key; here its line is found by looking at headings and keys.

const HEADING = /^\s*\[\[?\s*"?(\w+)"?\s*\]\]?/;

/** The lines of a text, with the table that each stands in: its kind, and its number from 1. */
function* tables(editor) {
  const counts = {};
  let kind = "", number = 1;
  for (let line = 0; line < editor.lines; line++) {
    const text = editor.lineText(line), heading = HEADING.exec(text);
    if (heading) {
      kind = heading[1];
      number = counts[kind] = (counts[kind] ?? 0) + 1;
    }
    yield { line, text, kind, number, isHeading: Boolean(heading) };
  }
}

function hasKey(text, key) {
  const found = /^\s*"?([\w-]+)"?\s*=/.exec(text);
  return found !== null && found[1] === key;
}

/** The line of a table, and of a key in it where that is there. The top has no table. */
export function placeOfTable(editor, { table = "", number = 1, key }) {
  let found = table ? -1 : 0;
  for (const it of tables(editor)) {
    if (it.kind !== table || it.number !== number) {
      if (found >= 0 && it.isHeading && table) return found;
      if (!table && it.isHeading) return found;
      continue;
    }
    if (it.isHeading) found = it.line;
    if (key && hasKey(it.text, key)) return it.line;
  }
  return found;
}

/** The line of the table of a kind that has a value at a key. */
export function placeOfValue(editor, table, key, value) {
  for (const it of tables(editor)) {
    if (it.kind !== table || !hasKey(it.text, key)) continue;
    if (it.text.split("=")[1].replace(/#.*/, "").trim().replaceAll('"', "") === String(value)) return it.line;
  }
  return -1;
}

/** The line of the scenario that a sentence speaks of, or -1: of a warning no table is told. */
export function placeOfSentence(editor, sentence) {
  const event = /^event (\d+)\b/.exec(sentence), name = /\b(cable|sink) `(\w+)`/.exec(sentence), port = /^port (\d+)\b/.exec(sentence);
  if (event) return placeOfValue(editor, "event", "id", event[1]);
  if (name) return placeOfValue(editor, name[1], "name", name[2]);
  return port ? placeOfTable(editor, { table: "port", number: Number(port[1]) }) : -1;
}
