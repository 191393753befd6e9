// What the keys do, and what the words mean.
import { element } from "./table.js";

const KEYS = [
  ["wheel, + −", "nearer, farther"], ["drag, ← →", "move the window"], ["F, 0", "all of the run"],
  ["click, A", "cursor A; on a packet: choose it"], ["Shift and click, B", "cursor B; a finger sets A and B in turn"],
  ["Z", "from cursor A to B"], ["N P, ↓ ↑", "next packet, the one before; in a table the next row"], [". ,", "next fault, the one before"],
  ["/", "search in the packets"], ["Esc", "take cursors away"], ["Ctrl+Z, Ctrl+Shift+Z", "undo, redo"], ["?", "this help"],
];
const ABOUT = [
  "Left stands a scenario, a charger with its ports, cables, sinks and events, and a script of edits, which are made before the run; " +
    "right what comes of it. The picture shows the budget as a line, contracts as areas, holds as broken lines where you choose them, " +
    "and for each port a lane: its phases, events, faults, and packets with their true durations, SOP apart from SOP'.",
  "The dotted lines and the empty boxes are the run before the last edit; Differences lists what that took away and brought.",
  "Everything that is shown comes from the proved module in this file; the page sends nothing anywhere. Proved are the module's " +
    "exports; the compiler that made the module, its heap, the browser and the page's own script are not.",
  "The editor is CodeMirror 5, by Marijn Haverbeke and others, under the MIT licence.",
];

export function helpOf(close) {
  const rows = KEYS.map(([keys, words]) => element("tr", {}, element("td", {}, element("kbd", { words: keys })), element("td", { words })));
  return [element("h2", { words: "pdbench in a page" }), ...ABOUT.map((words) => element("p", { words })), element("table", {}, ...rows),
    element("p", {}, element("button", { words: "Close", onclick: close }))];
}
