// What came of a sweep, by the message that was lost: of which port, from whom, and how often it led to what.

/** How bad what a loss leads to is, from 0: not lost; no difference; others for a time; faults; Hard Resets; others at the end. */
export const HEATS = ["not lost", "no difference", "other contracts for a time", "more faults", "more Hard Resets",
  "other contracts at the end"];

export function heatOf(it) {
  if (it.outcome !== "hit") return 0;
  if (!it.same_contracts) return 5;
  if (it.hard_resets > 0) return 4;
  if (it.faults > 0) return 3;
  return it.difference ? 2 : 1;
}

/** The most of a measure over a packet's ports; nothing where it wasn't lost. */
const mostOf = (it, key) => (it.ports ? it.ports.reduce((found, of) => Math.max(found, of[key]), 0) : -Infinity);
/** For how long a loss leaves a port with less power, and until when a port's contract is another. */
export const lessPower = (it) => mostOf(it, "less_power_us");
export const differsUntil = (it) => mostOf(it, "differs_until_us");

/** The numbers by which losses are compared, the one that counts most first: a greater one is worse. */
const badness = (it) => [heatOf(it), lessPower(it), differsUntil(it), it.hard_resets ?? 0, it.faults ?? 0,
  -(it.least_margin_uw ?? Infinity), -it.at_us];

/** Less than 0 where the first loss is worse. */
export function worseFirst(one, other) {
  const others = badness(other), place = badness(one).findIndex((it, at) => it !== others[at]);
  return place < 0 ? 0 : others[place] - badness(one)[place];
}

const most = (packets, by) => packets.reduce((found, it) => Math.max(found, by(it)), -Infinity);

function groupOf(packets) {
  const [{ port, side, set, message }] = packets, hit = packets.filter((it) => it.outcome === "hit");
  const counts = HEATS.map((_, heat) => packets.filter((it) => heatOf(it) === heat).length);
  const worst = packets.reduce((found, it) => (worseFirst(it, found) < 0 ? it : found));
  return { port, side, set, message, packets, counts, worst, less: most(hit, lessPower), until: most(hit, differsUntil),
    faults: most(hit, (it) => it.faults), resets: most(hit, (it) => it.hard_resets), margin: -most(hit, (it) => -it.least_margin_uw) };
}

/** The groups of a sweep's packets, those of the first packets first. */
export function grouped(packets) {
  const groups = new Map();
  for (const it of packets) {
    const name = [it.port, it.side, it.set, it.message].join(" ");
    if (!groups.has(name)) groups.set(name, []);
    groups.get(name).push(it);
  }
  return [...groups.values()].map(groupOf);
}
