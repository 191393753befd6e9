// The script in which a packet is lost, as `pdlab sweep` loses it: by an event at its time on its port, of an unused id below those of the
// other events there, so that it comes before them.

const MOST_TRIES = 50, ABOVE_ALL_IDS = 1_000_001;

export function ended(script) {
  return script === "" || script.endsWith("\n") ? script : `${script}\n`;
}

/** The ids of the events of a run, and of those on a port at a time. */
function idsOf(run, at, port) {
  const used = new Set(), here = [];
  for (const [place, lane] of run.lanes.entries()) {
    for (const line of lane.events) {
      const { id } = run.line(line);
      if (id === undefined) continue;
      used.add(id);
      if (run.at[line] === at && place === port - 1) here.push(id);
    }
  }
  return { used, here };
}

/** The line that puts an event in, by the greatest id below one for which it isn't refused: an event after the end isn't in the run. */
function insertable(engine, { scenario, script }, used, below, words) {
  const without = ended(script).replace(/^\s*(show|end)\b.*$/gm, "");
  for (let id = below - 1, tries = 0; id > 0 && tries < MOST_TRIES; id--) {
    if (used.has(id)) continue;
    tries++;
    const line = `insert ${id} ${words}`, { text } = engine.run(scenario, `end 0\n${without}${line}\n`);
    if (text.trimEnd().split("\n").at(-2) === "ok") return { id, line };
  }
  return null;
}

/** The texts of the run in which a packet, and as many behind it, are lost or damaged; nothing where no id is free. */
export function variantOf(engine, run, { at_us: at, port }, { damaged, behind }) {
  const { used, here } = idsOf(run, at, port), { scenario } = run.source, words = `${at} ${port} ${damaged ? "damage 0 1" : "lose"}`;
  let { script } = run.source, below = Math.min(ABOVE_ALL_IDS, ...here);
  for (let number = 0; number <= behind; number++) {
    const found = insertable(engine, { scenario, script }, used, below, words);
    if (!found) return null;
    script = `${ended(script)}${found.line}\n`;
    below = found.id;
  }
  return { scenario, script };
}
