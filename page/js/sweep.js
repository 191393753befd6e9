// Each packet lost in turn: a worker runs the parts, and here stands what came of them, packet by packet and by message.
import { endingWords } from "./engine.js";
import { HEATS, differsUntil, grouped, heatOf, lessPower, worseFirst } from "./groups.js";
import { SortedTable, element } from "./table.js";
import { named, objectWords, seconds, span, watts } from "./words.js";

const signed = (number) => (number > 0 ? `+${number}` : String(number).replace("-", "−"));
/** A value of packets that were lost; where none was, nothing. */
const orNone = (value, words) => (Number.isFinite(value) ? words(value) : "");
/** A time, where there is one. */
const lasting = (us) => (us > 0 ? span(us) : "");
const instant = (us) => (us > 0 ? seconds(us) : "");
const contractWords = (it) => (it ? `${it.voltage_mv / 1000} V ${(it.current_ma / 1000).toFixed(2)} A` : "none");
const fromWords = (it) => `${it.side} ${it.set}`;

function othersWords(it) {
  if (it.outcome !== "hit") return named("outcome", it.outcome)[1] + (it.refusal ? ` ${it.refusal}` : "");
  return it.contracts.map((of) => `port ${of.port}: ${contractWords(of.contract)}, was ${contractWords(of.was)}`).join("; ") || "the same";
}

/** The columns of packets and of groups: their words, and by what they are sorted. */
const PACKETS = [
  { title: "time s", width: 92, right: true, least: true, by: (it) => it.at_us, words: (it) => seconds(it.at_us) },
  { title: "port", width: 54, right: true, least: true, by: (it) => it.port, words: (it) => it.port },
  { title: "packet lost", width: 210, by: (it) => it.message, words: (it) => `${fromWords(it)} ${it.message} ${it.id}` },
  { title: "comes to", width: 190, by: heatOf, words: (it) => HEATS[heatOf(it)], worst: worseFirst },
  { title: "less power", width: 106, right: true, by: lessPower, words: (it) => lasting(lessPower(it)) },
  { title: "differs until s", width: 118, right: true, by: differsUntil, words: (it) => instant(differsUntil(it)) },
  { title: "faults", width: 66, right: true, by: (it) => it.faults ?? -Infinity, words: (it) => orNone(it.faults, signed) },
  { title: "resets", width: 66, right: true, by: (it) => it.hard_resets ?? -Infinity, words: (it) => orNone(it.hard_resets, signed) },
  { title: "least margin", width: 110, right: true, by: (it) => it.least_margin_uw ?? Infinity, least: true,
    words: (it) => orNone(it.least_margin_uw, watts) },
  { title: "contracts at the end", words: othersWords, by: othersWords },
];
const GROUPS = [
  { title: "port", width: 54, right: true, least: true, by: (it) => it.port, words: (it) => it.port },
  { title: "from", width: 78, by: fromWords, words: fromWords },
  { title: "message lost", width: 158, by: (it) => it.message, words: (it) => it.message },
  { title: "packets", width: 72, right: true, by: (it) => it.packets.length, words: (it) => it.packets.length },
  { title: "at worst", width: 196, by: (it) => heatOf(it.worst), words: (it) => HEATS[heatOf(it.worst)],
    worst: (one, other) => worseFirst(one.worst, other.worst) },
  { title: "how many", width: 86, right: true, by: (it) => it.counts[heatOf(it.worst)], words: (it) => it.counts[heatOf(it.worst)] },
  { title: "less power", width: 106, right: true, by: (it) => it.less, words: (it) => lasting(it.less) },
  { title: "differs until s", width: 118, right: true, by: (it) => it.until, words: (it) => instant(it.until) },
  { title: "faults", width: 66, right: true, by: (it) => it.faults, words: (it) => orNone(it.faults, signed) },
  { title: "resets", width: 66, right: true, by: (it) => it.resets, words: (it) => orNone(it.resets, signed) },
  { title: "least margin", width: 110, right: true, by: (it) => it.margin, least: true, words: (it) => orNone(it.margin, watts) },
  { title: "the worst at", least: true, by: (it) => it.worst.at_us, words: (it) => `${seconds(it.worst.at_us)} s` },
];

export class Sweep {
  /** `heat(cells)`: what the picture shows; `variant(packet, choice)`: the run with this packet lost is to be shown. */
  constructor({ heat, variant, given, colours }) {
    Object.assign(this, { heat, variant, given, colours, results: [] });
    const kind = (it) => (heatOf(it) > 2 ? "bad" : "");
    const none = "no packet was lost yet: Lose each packet begins";
    this.table = new SortedTable({ label: "Sweep, each packet", columns: PACKETS, none, kind,
      open: (it) => this.variant(it, this.choice) });
    this.groups = new SortedTable({ label: "Sweep, by message", columns: GROUPS, none,
      kind: (it) => kind(it.worst), open: (it) => this.variant(it.worst, this.choice) });
    this.groups.host.hidden = true;
    this.tools = this.madeTools();
    this.summary = element("div", { class: "tools", hidden: true });
  }

  madeTools() {
    this.start = element("button", { words: "Lose each packet", onclick: () => this.begin() });
    this.stop = element("button", { words: "Stop", disabled: true, onclick: () => this.end("stopped") });
    this.port = element("select", { "aria-label": "Port" });
    this.damage = element("input", { type: "checkbox" });
    this.row = element("input", { type: "number", min: 1, max: 8, value: 1, "aria-label": "How many in a row" });
    this.row.style.width = "52px";
    this.window = element("input", { type: "checkbox" });
    this.rows = element("select", { "aria-label": "Rows", onchange: () => this.list() },
      element("option", { value: "packets", words: "each packet" }), element("option", { value: "groups", words: "by message" }));
    this.bar = element("progress", { max: 1, value: 0, "aria-label": "Progress of the sweep" });
    this.told = element("output", { "aria-live": "polite" });
    this.key = element("span", { class: "key" });
    return element("div", { class: "tools" }, this.start, this.stop, this.port, element("label", {}, this.window, " the window alone"),
      element("label", {}, this.damage, " damage"), element("label", {}, this.row, " in a row"), this.rows, this.bar, this.told, this.key);
  }

  paintKey() {
    this.key.replaceChildren(...HEATS.slice(1).map((words, heat) => {
      const swatch = element("span", { class: "swatch" });
      swatch.style.background = this.colours().heat[heat + 1];
      return element("span", {}, swatch, words);
    }));
  }

  /** Another run is shown: what was found is no longer of it. */
  clear(ports) {
    this.end("");
    this.results = [];
    const chosen = this.port.value;
    this.port.replaceChildren(element("option", { value: 0, words: "all ports" }),
      ...Array.from({ length: ports }, (_, port) => element("option", { value: port + 1, words: `port ${port + 1}` })));
    this.port.value = Number(chosen) <= ports ? Number(chosen) : 0;
    this.bar.value = 0;
    this.summary.hidden = true;
    this.heat(null);
    this.paintKey();
    this.list();
  }

  begin() {
    const given = this.given();
    if (!given) return;
    const { scenario, script, module, worker, view, ports } = given;
    this.clear(ports);
    const window = this.window.checked ? { from: Math.floor(view.from), to: Math.ceil(view.to) } : {};
    this.choice = { port: Number(this.port.value), damaged: this.damage.checked,
      behind: Math.min(Math.max(Number(this.row.value) || 1, 1), 8) - 1, ...window };
    this.began = performance.now();
    this.summaries = [];
    const address = URL.createObjectURL(new Blob([worker], { type: "text/javascript" }));
    this.worker = new Worker(address);
    URL.revokeObjectURL(address);
    this.worker.onmessage = ({ data }) => this.take(data);
    this.worker.onerror = (event) => this.end(`the sweep was stopped: ${event.message}`);
    this.worker.postMessage({ module, scenario, script, choice: this.choice });
    this.start.disabled = true;
    this.stop.disabled = false;
    this.told.textContent = "begins …";
  }

  take(data) {
    if (data.ending !== undefined) return this.end(endingWords(data));
    if (data.count !== undefined) this.count = data.count;
    if (data.packets) {
      this.results.push(...data.packets);
      this.summaries.push(data.summary);
      this.show();
    }
    this.bar.max = this.count || 1;
    this.bar.value = this.results.length;
    const left = (performance.now() - this.began) * (this.count / Math.max(this.results.length, 1) - 1);
    this.told.textContent =
      `${this.results.length} of ${this.count} packets${this.results.length ? `, ${Math.ceil(left / 1000)} s left` : ""}`;
    if (data.done) this.end(`${this.count} packets in ${span(Math.round((performance.now() - this.began) * 1000))}`);
  }

  end(words) {
    this.worker?.terminate();
    this.worker = null;
    this.start.disabled = false;
    this.stop.disabled = true;
    this.told.textContent = words === "stopped" ? `stopped after ${this.results.length} of ${this.count ?? 0} packets` : words;
  }

  show() {
    const isLower = (it) => it.outcome === "hit" && it.lower_at_us !== null;
    this.heat(this.results.map((it) => ({ at: it.at_us, port: it.port, heat: heatOf(it), lower: isLower(it), packet: it })));
    this.list();
    const lower = (found, it) => (!found || it.least_margin_uw < found.least_margin_uw ? it : found);
    const least = this.results.filter(isLower).reduce(lower, null);
    const tried = this.summaries.reduce((sum, it) => sum + it.packets, 0);
    const others = this.summaries.reduce((sum, it) => sum + it.other_contracts, 0);
    this.summary.hidden = false;
    const worst = least && `; least margin ${watts(least.least_margin_uw)}, with ${least.message} at ${seconds(least.at_us)} s lost`;
    this.summary.textContent = `${tried} packets tried, ${others} with other contracts at the end${worst ?? ""}`;
  }

  /** Shows the rows that are chosen: each packet, or the messages. */
  list() {
    const isGrouped = this.rows.value === "groups";
    this.table.host.hidden = isGrouped;
    this.groups.host.hidden = !isGrouped;
    if (isGrouped) this.groups.give(grouped(this.results));
    else this.table.give(this.results);
  }
}

const portWords = (of) => `, port ${of.port}${of.less_power_us > 0 ? ` less power for ${span(of.less_power_us)},` : ""}` +
  `${of.more_power_us > 0 ? ` more power for ${span(of.more_power_us)},` : ""} differs until ${seconds(of.differs_until_us)} s`;

/** What a loss led to, in a line. */
export function sweepWords(it) {
  return `${seconds(it.at_us)} s port ${it.port} ${it.side} ${it.message} lost: ${HEATS[heatOf(it)]}` +
    (it.outcome === "hit" ? `${it.ports.map(portWords).join("")}, faults ${signed(it.faults)}, resets ${signed(it.hard_resets)}`
      : `, ${objectWords({ outcome: it.outcome })}`);
}
