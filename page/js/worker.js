// A sweep, in parts, so that the page is told how far it is and can stop it.
import { Engine, Ending, objectsOf, unpacked } from "./engine.js";

const LONG = 250, MOST = 400;

async function sweep({ module, scenario, script, choice }) {
  const engine = await Engine.of(await unpacked(module));
  const { ending, count } = engine.packetCount(scenario, script, choice);
  if (ending !== Ending.DONE) return postMessage({ ending });
  postMessage({ count });
  let part = 4;
  for (let first = 0; first < count; ) {
    const began = performance.now(), answer = engine.sweep(scenario, script, choice, first, part);
    if (answer.ending !== Ending.DONE) return postMessage({ ending: answer.ending, why: answer.why });
    const objects = objectsOf(answer.text);
    postMessage({ first, packets: objects.slice(0, -1), summary: objects.at(-1) });
    first += part;
    if (performance.now() - began < LONG) part = Math.min(part * 2, MOST);
  }
  postMessage({ done: true });
}

onmessage = ({ data }) => sweep(data).catch((error) => postMessage({ ending: Ending.STOPPED, why: String(error) }));
