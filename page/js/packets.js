// The table of packets, and what is told of the one that is chosen: its fields, its codes, and what caused it.
import { Ending, endingWords, objectsOf } from "./engine.js";
import { Kind, KINDS, SIDES } from "./run.js";
import { Table, element } from "./table.js";
import { contentWords, named, objectWords, seconds, span } from "./words.js";

const COLUMNS = [
  { title: "#", width: 50, right: true }, { title: "time s", width: 82, right: true }, { title: "since", width: 96, right: true },
  { title: "port", width: 46, right: true }, { title: "from", width: 74 }, { title: "message", width: 158 }, { title: "content" },
];
/** What a search looks through at a time, so that a long run doesn't keep the page waiting. */
const PART = 4000;

export class Packets {
  /** `chosen(line)`: a line was chosen; `lit(line)`: the pointer is on it. */
  constructor({ engine, chosen, lit, filtered }) {
    Object.assign(this, { engine, chosen, filtered, rows: [], words: [] });
    this.filter = { sides: new Set([0, 1, 2]), message: "", unusual: false, all: false };
    this.table = new Table({
      label: "Packets", columns: COLUMNS, none: "no packet fits the filters",
      cells: (row) => this.cells(row), kind: (row) => this.kind(row),
      open: (row) => this.open(this.rows[row]), hover: (row) => lit(row < 0 ? -1 : this.rows[row]),
    });
    this.details = element("aside", { class: "details", "aria-label": "The chosen line", tabindex: 0, hidden: true });
    this.tools = this.madeTools();
    this.host = element("div", { class: "beside" }, this.table.host, this.details);
  }

  madeTools() {
    const box = (words, changed, checked) => {
      const input = element("input", { type: "checkbox", checked });
      input.addEventListener("change", () => (changed(input.checked), this.apply()));
      return element("label", {}, input, ` ${words}`);
    };
    const sides = SIDES.map((name, side) => box(name, (on) => (on ? this.filter.sides.add(side) : this.filter.sides.delete(side)), true));
    this.message = element("select", { "aria-label": "Message" });
    this.message.addEventListener("change", () => ((this.filter.message = this.message.value), this.apply()));
    this.search = element("input", { type: "search", placeholder: "Search (/)", "aria-label": "Search in the rows", size: 18 });
    this.search.addEventListener("keydown", (event) => event.key === "Enter" && this.find(event.shiftKey ? -1 : 1));
    this.found = element("output", { "aria-live": "polite" });
    const next = element("button", { words: "Next", title: "Next that has it (Enter)", onclick: () => this.find(1) });
    const all = box("all lines", (on) => (this.filter.all = on), false);
    all.title = "Events, offers, requests, holds, contracts, faults and states too";
    return element("div", { class: "tools" }, ...sides, this.message, box("only unusual", (on) => (this.filter.unusual = on), false),
      all, this.search, next, this.found);
  }

  show(run) {
    const keep = this.run && this.at >= 0 ? { at: this.run.at[this.at], port: this.run.port[this.at] } : null;
    this.run = run;
    this.at = -1;
    this.words = [];
    const chosen = this.filter.message, names = [...run.messages.slice(1)].sort();
    this.message.replaceChildren(element("option", { value: "", words: "all messages" }),
      element("option", { value: "!GoodCRC", words: "but GoodCRC" }),
      ...names.map((words) => element("option", { value: words, words })));
    this.message.value = names.includes(chosen) || chosen === "!GoodCRC" ? chosen : "";
    this.filter.message = this.message.value;
    this.apply(keep);
  }

  accepts(line) {
    const { run, filter } = this;
    if (this.hidden?.has(run.port[line])) return false;
    if (filter.unusual && !run.isUnusual(line)) return false;
    if (!run.isPacket(line)) return filter.all || filter.unusual;
    if (!filter.sides.has(run.side[line])) return false;
    if (!filter.message) return true;
    const name = run.messages[run.message[line]];
    return filter.message === "!GoodCRC" ? name !== "GoodCRC" : name === filter.message;
  }

  /** Chooses the rows anew. The chosen line stays chosen; after an edit the one at its time is. */
  apply(keep = null) {
    const { run } = this, rows = [];
    for (let line = 0; line < run.count; line++) if (this.accepts(line)) rows.push(line);
    this.rows = Uint32Array.from(rows);
    this.table.show(this.rows.length);
    if (keep) this.at = rows.find((line) => run.at[line] === keep.at && run.port[line] === keep.port) ?? -1;
    if (this.at >= 0) this.select(this.at, false);
    else this.clear();
    this.filtered();
  }

  clear() {
    this.at = -1;
    this.details.hidden = true;
    this.table.select(-1);
  }

  /** The row of a line, or the one behind it. */
  rowOf(line) {
    let low = 0, high = this.rows.length;
    while (low < high) {
      const middle = (low + high) >> 1;
      if (this.rows[middle] < line) low = middle + 1;
      else high = middle;
    }
    return low;
  }

  wordsOf(row) {
    return (this.words[this.rows[row]] ??= contentWords(this.run.line(this.rows[row])));
  }

  cells(row) {
    const { run } = this, line = this.rows[row], isPacket = run.isPacket(line);
    const before = row > 0 ? run.at[this.rows[row - 1]] : 0;
    const name = isPacket ? run.messages[run.message[line]] : KINDS[run.kind[line]].replaceAll("_", " ");
    const isNamed = run.kind[line] === Kind.packet;
    const id = isNamed ? ` ${/"id":(\d)/.exec(run.text.slice(run.begins[line], run.begins[line + 1]))[1]}` : "";
    const from = isPacket ? `${SIDES[run.side[line]]}${isNamed ? (run.prime[line] ? " SOP'" : " SOP") : ""}` : "";
    return [line + 1, seconds(run.at[line]), span(run.at[line] - before), run.port[line], from, `${name}${id}`, this.wordsOf(row)];
  }

  kind(row) {
    const { run } = this, line = this.rows[row];
    if (run.isUnusual(line)) return "bad";
    return run.isPacket(line) && run.messages[run.message[line]] !== "GoodCRC" ? "" : "quiet";
  }

  /** Marks the row of a line. */
  select(line, scroll = true) {
    this.at = line;
    const row = this.rowOf(line);
    this.table.select(this.rows[row] === line ? row : -1, scroll);
    if (this.rows[row] !== line && scroll) this.table.scrollTo(row);
    this.tell(line);
  }

  open(line) {
    this.at = line;
    this.tell(line);
    this.chosen(line);
  }

  /** The next row with the words of the search, from the chosen one on. */
  find(step) {
    const wanted = this.search.value.trim().toLowerCase(), { rows } = this;
    if (!wanted || !rows.length) return;
    const begin = this.at >= 0 ? this.rowOf(this.at) : step > 0 ? -1 : 0;
    const number = (this.searches = (this.searches ?? 0) + 1);
    const look = (done) => {
      if (number !== this.searches) return;
      for (const end = Math.min(done + PART, rows.length); done < end; done++) {
        const row = (((begin + step * (done + 1)) % rows.length) + rows.length) % rows.length;
        if (!this.cells(row).join(" ").toLowerCase().includes(wanted)) continue;
        this.found.textContent = `row ${row + 1}`;
        this.table.choose(row);
        return;
      }
      if (done < rows.length) setTimeout(() => look(done));
      else this.found.textContent = "no row has it";
    };
    look(0);
  }

  /** Tells a line's fields at once; its codes and its cause, which take a run each, right after. */
  tell(line) {
    const { run } = this, told = run.line(line), parts = [];
    const isPacket = run.isPacket(line), name = isPacket ? run.messages[run.message[line]] : KINDS[run.kind[line]].replaceAll("_", " ");
    this.details.hidden = false;
    parts.push(element("button", { class: "close", words: "×", "aria-label": "Close", onclick: () => this.clear() }));
    parts.push(element("h3", { words: `${name}, ${seconds(told.at_us)} s, port ${told.port}` }));
    const fields = Object.entries(told).filter(([key]) => !["at_us", "port", "kind", "objects", "message"].includes(key));
    parts.push(this.listed([...fields, ...(isPacket ? [["lasts_us", run.lasts[line]]] : [])]));
    (told.objects ?? []).forEach((object, place) => {
      const summary = element("summary", { words: `${place + 1} ${objectWords(object)}` });
      parts.push(element("details", {}, summary, this.listed(Object.entries(object))));
    });
    this.details.replaceChildren(...parts);
    clearTimeout(this.later);
    this.later = setTimeout(() => this.tellMore(line, told, isPacket), 60);
  }

  listed(fields) {
    const list = element("dl");
    for (const [key, value] of fields) {
      const [name, words] = key === "since_us" || key === "lasts_us" ? [key.replace("_us", ""), span(value)] : named(key, value);
      list.append(element("dt", { words: name }), element("dd", { words }));
    }
    return list;
  }

  tellMore(line, told, isPacket) {
    if (this.at !== line) return;
    if (isPacket) this.tellCodes(line, told);
    this.tellWhy(told);
  }

  tellCodes(line, told) {
    const { scenario, script } = this.run.source;
    const answer = this.engine.show(scenario, script, { port: told.port, from: told.at_us, to: told.at_us, codes: true });
    if (answer.ending !== Ending.DONE) return this.add("Codes", endingWords(answer));
    const same = objectsOf(answer.text).find((it) => it.kind === told.kind && it.side === told.side && it.header === told.header);
    if (same) this.add("Codes", same.codes, "codes");
  }

  /** The story of the port's last offer up to the line: what bounds it, what the sink asks for, and what came of it. */
  tellWhy(told) {
    const { scenario, script } = this.run.source, answer = this.engine.why(scenario, script, told.port, told.at_us);
    if (answer.ending !== Ending.DONE) return this.add("Why", endingWords(answer));
    const facts = objectsOf(answer.text), begin = facts.findLastIndex((it) => it.kind === "offer");
    const list = element("ol");
    for (const fact of begin < 0 ? facts : facts.slice(begin)) list.append(element("li", { words: whyWords(fact) }));
    const title = begin < 0 ? "Why: no offer up to here" : `Why: the offer at ${seconds(facts[begin].at_us)} s`;
    this.details.append(element("h3", { words: title }), list);
  }

  add(title, words, kind) {
    this.details.append(element("h3", { words: title }), element("p", { class: kind, words }));
  }
}

/** A fact of `why`: its kind, its time and its values. */
function whyWords({ kind, at_us: at, ...rest }) {
  const time = at === undefined ? "" : `${seconds(at)} s `;
  const facts = Object.entries(rest).map(([key, value]) => named(key, value).join(" "));
  return `${time}${kind.replaceAll("_", " ")}${facts.length ? `: ${facts.join(", ")}` : ""}`;
}
