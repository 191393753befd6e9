// How times, powers and the lines of a run are written. What a line says comes from its keys: their units stand at their ends.

const UNITS = [["_mv", "V", 1e3], ["_ma", "A", 1e3], ["_mw", "W", 1e3], ["_uw", "W", 1e6]];
const HEAD = new Set(["at_us", "since_us", "port", "kind", "side", "fate", "by_event", "set", "message", "header", "id", "objects",
  "codes"]);

/** A time in seconds, to the microsecond. */
export function seconds(us) {
  return (us / 1e6).toFixed(6);
}

/** A span of time, in the unit that suits it. */
export function span(us) {
  const length = Math.abs(us), sign = us < 0 ? "−" : "";
  if (length < 1000) return `${sign}${length} µs`;
  if (length < 1e6) return `${sign}${(length / 1e3).toFixed(3)} ms`;
  return `${sign}${(length / 1e6).toFixed(6)} s`;
}

/** A power in watts, of microwatts. */
export function watts(uw) {
  return `${Number((uw / 1e6).toFixed(4))} W`;
}

export function contractWords({ position, voltage_mv: mv, current_ma: ma }) {
  return `contract ${position}: ${(mv / 1e3).toFixed(2)} V ${(ma / 1e3).toFixed(2)} A`;
}

/** A value behind the name of its key, both as one reads them. */
export function named(key, value) {
  const unit = UNITS.find(([end]) => key.endsWith(end));
  const name = (unit ? key.slice(0, -unit[0].length) : key.replace(/_us$/, "")).replaceAll("_", " ");
  if (value === null) return [name, "none"];
  if (typeof value === "boolean") return [name, value ? "yes" : "no"];
  if (Array.isArray(value)) return [name, value.map((it) => (typeof it === "object" ? objectWords(it) : it)).join(", ")];
  if (typeof value === "object") return [name, objectWords(value)];
  if (unit && unit[1] === "W") return [name, watts(value * (1e6 / unit[2]))];
  if (unit) return [name, `${(value / unit[2]).toFixed(2)} ${unit[1]}`];
  return [name, key.endsWith("_us") ? `${seconds(value)} s` : String(value).replaceAll("_", " ")];
}

/** An object in a few words: numbers with their units, what is true by its name, and nothing of what is false. */
export function objectWords(object) {
  const words = [];
  for (const [key, value] of Object.entries(object)) {
    const [name, text] = named(key, value);
    if (key === "object" || value === false || value === null || (value === 0 && key === "peak_current")) continue;
    if (value === true) words.push(name);
    else if (key === "kind" || key === "voltage_mv" || key === "current_ma") words.push(text);
    else words.push(`${name} ${text}`);
  }
  return words.join(" ");
}

/** What a line says behind its time, its port and its message. */
export function contentWords(line) {
  const words = [];
  if (line.kind === "packet") {
    line.objects.forEach((object, place) => words.push(`${place + 1} ${objectWords(object)}`));
    if (line.fate !== "whole") words.unshift(`${line.fate} by event ${line.by_event}`);
    return words.join(" | ");
  }
  if (line.kind === "contract") return contractWords(line).replace("contract ", "supply ");
  const rest = Object.fromEntries(Object.entries(line).filter(([key]) => !HEAD.has(key) || (key === "id" && line.kind === "event")));
  if (line.kind === "fault" && line.side) rest.side = line.side;
  return objectWords(rest);
}

/** The whole line, for a tip or a reader. */
export function lineWords(line) {
  const who = line.kind === "packet" ? `${line.side} ${line.set} ${line.message} id ${line.id}` :
    line.kind === "hard_reset" ? `${line.side} Hard_Reset` : line.kind.replaceAll("_", " ");
  return `${seconds(line.at_us)} s port ${line.port} ${who} ${contentWords(line)}`.trim();
}
