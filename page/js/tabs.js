// The tables below the picture, each behind a tab.
import { Table, element } from "./table.js";
import { wholeWords } from "./told.js";
import { named, objectWords, seconds } from "./words.js";

export class Tabs {
  /** `panels`: a name, the parts, and what is to be done when it is opened. */
  constructor(bar, host, panels) {
    this.panels = panels;
    this.shown = {};
    for (const panel of panels) {
      panel.count = element("span", { class: "count" });
      panel.tab = element("button", { role: "tab", id: `tab-${panel.name}`, "aria-controls": `panel-${panel.name}`,
        onclick: () => this.open(panel.name) }, panel.name, " ", panel.count);
      panel.host = element("div", { role: "tabpanel", id: `panel-${panel.name}`, "aria-labelledby": `tab-${panel.name}`, hidden: true },
        ...panel.parts);
      bar.append(panel.tab);
      host.append(panel.host);
    }
    bar.addEventListener("keydown", (event) => this.pressed(event));
    this.open(panels[0].name);
  }

  open(name) {
    for (const panel of this.panels) {
      const isOpen = panel.name === name;
      panel.tab.setAttribute("aria-selected", isOpen);
      panel.tab.tabIndex = isOpen ? 0 : -1;
      panel.host.hidden = !isOpen;
      if (isOpen) this.current = panel;
    }
    this.refresh();
  }

  /** Shows anew what is made only where it is looked at. */
  refresh() {
    this.current?.opened?.();
  }

  count(name, words, isBad = false) {
    const panel = this.panels.find((it) => it.name === name);
    panel.count.textContent = words === "" ? "" : words;
    panel.tab.classList.toggle("bad", isBad);
  }

  pressed(event) {
    const step = { ArrowLeft: -1, ArrowRight: 1 }[event.key];
    if (!step) return;
    event.preventDefault();
    event.stopPropagation();
    const place = (this.panels.indexOf(this.current) + step + this.panels.length) % this.panels.length;
    this.open(this.panels[place].name);
    this.current.tab.focus();
  }
}

/** A table of rows that are given. */
class Rows extends Table {
  give(rows) {
    this.rows = rows;
    this.show(rows.length);
  }
}

const time = (us) => seconds(Number(us));
const volt = (mv) => `${mv / 1000} V`;
const amps = (ma) => `${(ma / 1000).toFixed(2)} A`;
const watt = (uw) => `${Number((uw / 1e6).toFixed(6))} W`;

/** The short tables. `go(at, port)`: to a place of the picture; `goToTold(it)`: to a line of the texts. */
export function shownTables(go, goToTold) {
  const words = (line) => line.trim().split(" ");
  const made = {};
  made.contracts = new Rows({
    label: "Contracts", none: "no contract arises", columns: [{ title: "time s", width: 96, right: true },
      { title: "port", width: 50, right: true }, { title: "supply", width: 60, right: true },
      { title: "voltage", width: 90, right: true }, { title: "current", width: 90, right: true }, { title: "" }],
    cells: (row) => {
      const it = words(made.contracts.rows[row]);
      return it[3] === "none" ? [time(it[0]), it[2], "", "", "", "no contract any more"]
        : [time(it[0]), it[2], it[4], volt(it[5]), amps(it[7]), ""];
    },
    kind: (row) => (made.contracts.rows[row].endsWith("none") ? "bad" : ""),
    open: (row) => go(Number(words(made.contracts.rows[row])[0]), Number(words(made.contracts.rows[row])[2])),
  });
  made.margins = new Rows({
    label: "Margins", columns: [{ title: "time s", width: 96, right: true }, { title: "contracts", width: 120, right: true },
      { title: "margin", width: 120, right: true }, { title: "" }],
    cells: (row) => {
      const it = words(made.margins.rows[row]);
      return [time(it[0]), watt(it[2]), watt(it[4]), ""];
    },
    kind: (row) => (words(made.margins.rows[row])[4] === "0" ? "bad" : ""),
    open: (row) => go(Number(words(made.margins.rows[row])[0])),
  });
  made.faults = new Rows({
    label: "Faults", none: "nothing goes wrong", columns: [{ title: "time s", width: 96, right: true },
      { title: "port", width: 50, right: true }, { title: "fault" }],
    cells: (row) => {
      const it = words(made.faults.rows[row]);
      return [time(it[0]), it[2], it.slice(3).join(" ")];
    },
    kind: () => "bad", open: (row) => go(Number(words(made.faults.rows[row])[0]), Number(words(made.faults.rows[row])[2])),
  });
  made.warnings = new Rows({
    label: "Warnings and refusals", none: "nothing is refused or warned of",
      columns: [{ title: "text", width: 80 }, { title: "line", width: 50, right: true }, { title: "what" }],
    cells: (row) => {
      const it = made.warnings.rows[row];
      return [it.where, it.line < 0 ? "" : it.line + 1, wholeWords(it)];
    },
    kind: (row) => (made.warnings.rows[row].warns ? "" : "bad"), open: (row) => goToTold(made.warnings.rows[row]),
  });
  made.differences = new Rows({
    label: "Differences", none: "the last edit changes no contract, fault or margin",
      columns: [{ title: "", width: 26 }, { title: "show", width: 90 }, { title: "time s", width: 96, right: true }, { title: "line" }],
    cells: (row) => {
      const { sign, show, line } = made.differences.rows[row], it = words(line);
      return [sign, show, time(it[0]), it.slice(1).join(" ")];
    },
    kind: (row) => (made.differences.rows[row].sign === "+" ? "come" : "gone"),
      open: (row) => go(Number(words(made.differences.rows[row].line)[0])),
  });
  made.guarantee = new Rows({
    label: "What is sure for each port", none: "the scenario is refused",
    columns: [{ title: "port", width: 50, right: true }, { title: "supply", width: 74, right: true },
      { title: "voltage", width: 80, right: true }, { title: "offered at least", width: 136, right: true },
      { title: "cable of 3 A", width: 110, right: true }, { title: "free at least", width: 110, right: true },
      { title: "free at most", width: 110, right: true }, { title: "never reset up to", width: 146, right: true }, { title: "" }],
    cells: (row) => {
      const it = made.guarantee.rows[row];
      if (it.kind === "supply") {
        return [it.port, it.position, volt(it.voltage_mv), amps(it.at_least_ma), amps(it.at_least_3a_ma), "", "", "", ""];
      }
      return [it.port, "", "", "", "", watt(it.free_at_least_uw), watt(it.free_at_most_uw), watt(it.kept_up_to_uw),
        it.always_kept ? "always kept" : ""];
    },
  });
  made.tests = new Rows({
    label: "Tests", none: "no test script: lines of edits, expect and lose",
      columns: [{ title: "line", width: 50, right: true }, { title: "what" }],
    cells: (row) => {
      const it = made.tests.rows[row];
      if (it.failed !== undefined) return ["", `${it.passed} passed, ${it.failed} failed, ${it.refused} refused`];
      if (it.passed) return [it.line, `passed: ${it.passed}`];
      const what = it.expected ? `failed: ${it.expected}; there is ${it.found}` : it.sentence ?? `not lost: ${it.not_lost ?? it.not_tried}`;
      return [it.line ?? "", `${it.refusal ? `refused ${it.refusal}: ` : ""}${what}${it.hint ? ` — ${it.hint}` : ""}`];
    },
    kind: (row) => {
      const { passed, failed, refused } = made.tests.rows[row];
      return passed === undefined || failed || refused ? "bad" : "come";
    },
  });
  made.log = new Rows({
    label: "Decoded lines", none: "no line of a log", columns: [{ title: "line", width: 50, right: true }, { title: "what", width: 200 },
      { title: "says" }],
    cells: (row) => {
      const { line, kind, message, set, objects = [], ...rest } = made.log.rows[row];
      const said = objects.map((it, place) => `${place + 1} ${objectWords(it)}`).join(" | ");
      return [line ?? "", message ? `${set} ${message}` : named("kind", kind ?? "")[1], `${objectWords(rest)}${said ? ` | ${said}` : ""}`];
    },
    kind: (row) => (["fault", "unknown", "header"].includes(made.log.rows[row].kind) ? "bad" : ""),
  });
  return made;
}
