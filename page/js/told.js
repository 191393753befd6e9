// What `explain` says: its words, and the line that it stands at.
import { placeOfSentence, placeOfTable } from "./places.js";
import { element } from "./table.js";

/** What an object of `explain` says, of which text, at which line from 0 (-1: of none), and whether it warns. */
export function toldOf(it, isFile, scenario) {
  const where = !isFile && it.line !== undefined ? "script" : "scenario", warns = Boolean(it.warning);
  const words = `${it.refusal ? `refused ${it.refusal}: ` : ""}${it.sentence}`;
  return { where, line: lineOf(it, isFile, scenario), words, hint: it.hint, warns };
}

function lineOf(it, isFile, scenario) {
  if (it.line !== undefined) return it.line - 1;
  if (!isFile) return placeOfSentence(scenario, it.sentence);
  return it.refusal ? placeOfTable(scenario, it) : -1;
}

export function wholeWords({ words, hint }) {
  return hint ? `${words} — ${hint}` : words;
}

/** How many are refused and warned of, in words. */
export function countWords(told) {
  const refused = told.filter((it) => !it.warns).length, warned = told.length - refused;
  return [refused && `${refused} refused`, warned && `${warned} warned of`].filter(Boolean).join(", ");
}

/** A list of what is told of a text, each with a button that goes there. */
export function listTold(host, told, go) {
  host.replaceChildren(...told.map((it) => {
    const place = element("b", { words: it.line >= 0 ? `${it.line + 1}: ` : "" });
    const hint = it.hint ? element("span", { class: "hint", words: ` — ${it.hint}` }) : "";
    const given = { class: it.warns ? "warned" : "refused", onclick: () => go(it) };
    return element("li", {}, element("button", given, place, element("span", { words: it.words }), hint));
  }));
}
