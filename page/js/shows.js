// The shows of contracts, faults and margins, as a session writes them, and what two runs differ in.

export const SHOWS = ["contracts", "faults", "margins"];

/** The script with these shows at its end. */
export function asking(script) {
  const ended = script === "" || script.endsWith("\n") ? script : `${script}\n`;
  return ended + SHOWS.map((name) => `show ${name}\n`).join("");
}

/** The lines of these shows, which stand at the end of the answers. */
export function showsOf(answers) {
  const lines = answers.trimEnd().split("\n"), found = {};
  let end = lines.length - 1;
  for (const name of [...SHOWS].reverse()) {
    let begin = end - 1;
    while (begin >= 0 && lines[begin] !== `= ${name}`) begin--;
    found[name] = lines.slice(begin + 1, end);
    end = begin;
  }
  return found;
}

/** The lines that the first list has and the second hasn't. */
function without(lines, others) {
  const there = new Set(others);
  return lines.filter((line) => !there.has(line));
}

/** What one run has and the other hasn't, as `:diff` tells it, by the show, in the order of time. */
export function differences(before, after) {
  return SHOWS.flatMap((show) => {
    const gone = without(before[show], after[show]).map((line) => ({ show, line, sign: "−" }));
    const come = without(after[show], before[show]).map((line) => ({ show, line, sign: "+" }));
    return [...gone, ...come].sort((one, other) => parseInt(one.line, 10) - parseInt(other.line, 10));
  });
}
