// The proved module: texts in, texts out. docs/LAB.md has the forms, crates/pd_page the exports.

/** How a call ended. `STOPPED` is the browser's own: the module was stopped, and began anew. */
export const Ending = { DONE: 0, REFUSED: 1, NO_PORT: 2, MEMORY: 3, LONG: 4, STOPPED: 5 };

const FOREVER = 2n ** 64n - 1n;
/** The exports that run nothing, and so count no steps. */
const RUN_NOTHING = new Set(["page_list", "page_guarantee", "page_decode"]);
/** The longest answer of most scenarios has room in it. */
const FIRST_ROOM = 16n << 20n;
/** A module that has nothing but a memory of 64 bits. */
const MEMORY_64 = new Uint8Array([0, 0x61, 0x73, 0x6d, 1, 0, 0, 0, 5, 3, 1, 4, 1]);

/** Why this browser can't run the module, or nothing. */
export function wanting() {
  if (typeof WebAssembly === "undefined") return "WebAssembly";
  if (!WebAssembly.validate(MEMORY_64)) return "64-bit memory of WebAssembly (Chromium and Edge have it from 133 on, Firefox from 134 on)";
  if (typeof DecompressionStream === "undefined") return "DecompressionStream";
  return null;
}

/** The module's bytes, which stand in the page packed by gzip and in base64. */
export async function unpacked(base64) {
  const packed = Uint8Array.from(atob(base64.trim()), (letter) => letter.charCodeAt(0));
  const stream = new Blob([packed]).stream().pipeThrough(new DecompressionStream("gzip"));
  return new Uint8Array(await new Response(stream).arrayBuffer());
}

class OutOfMemory extends Error {}

export class Engine {
  static async of(bytes) {
    const engine = new Engine();
    engine.module = await WebAssembly.compile(bytes);
    await engine.begin();
    return engine;
  }

  /** Begins anew, with an empty memory. */
  async begin() {
    this.take(await WebAssembly.instantiate(this.module, {}));
  }

  take(instance) {
    this.exports = instance.exports;
    this.lengthAt = this.exports.room(8n);
    this.meterAt = this.exports.room(8n);
    this.numbers().setBigUint64(Number(this.meterAt), 0n, true);
    this.roomLength = FIRST_ROOM;
    this.roomAt = this.exports.room(FIRST_ROOM);
  }

  /** Puts a text into the module's memory: its place and its length. */
  given(text) {
    const bytes = new TextEncoder().encode(text);
    const place = this.exports.room(BigInt(bytes.length || 1));
    if (place === 0n) throw new OutOfMemory();
    new Uint8Array(this.exports.memory.buffer).set(bytes, Number(place));
    return [place, BigInt(bytes.length)];
  }

  /** The module's memory as numbers. */
  numbers() {
    return new DataView(this.exports.memory.buffer);
  }

  /** The length, or the count, that the module has written last. */
  length() {
    return this.numbers().getBigUint64(Number(this.lengthAt), true);
  }

  /** How many steps of ports all calls have taken. */
  steps() {
    return this.numbers().getBigUint64(Number(this.meterAt), true);
  }

  /** Calls an export again with more room until its answer fits. */
  answer(name, words) {
    for (;;) {
      if (this.roomAt === 0n) throw new OutOfMemory();
      const ending = this.exports[name](...words, this.roomAt, this.roomLength, this.lengthAt);
      const length = this.length();
      if (length <= this.roomLength) {
        const bytes = new Uint8Array(this.exports.memory.buffer, Number(this.roomAt), Number(length));
        return { ending, text: new TextDecoder().decode(bytes) };
      }
      this.exports.unroom(this.roomAt);
      this.roomLength = length + length / 4n;
      this.roomAt = this.exports.room(this.roomLength);
    }
  }

  /** Does something with the module; where memory is wanting, or the browser stops it, tells so. */
  guarded(call) {
    try {
      return call();
    } catch (error) {
      if (error instanceof OutOfMemory) {
        if (this.roomAt === 0n) this.roomAt = this.exports.room((this.roomLength = FIRST_ROOM));
        return { ending: Ending.MEMORY, text: "" };
      }
      this.take(new WebAssembly.Instance(this.module, {}));
      return { ending: Ending.STOPPED, text: "", why: String(error) };
    }
  }

  call(name, texts, choices = []) {
    return this.guarded(() => {
      const places = [];
      try {
        for (const text of texts) places.push(this.given(text));
        const meter = RUN_NOTHING.has(name) ? [] : [this.meterAt];
        return this.answer(name, [...places.flat(), ...choices, ...meter]);
      } finally {
        for (const [place] of places) this.exports.unroom(place);
      }
    });
  }

  run(scenario, script) {
    return this.call("page_run", [scenario, script]);
  }

  list(scenario, script) {
    return this.call("page_list", [scenario, script]);
  }

  show(scenario, script, { port = 0, from = 0n, to = FOREVER, goodCrc = true, codes = false } = {}) {
    return this.call("page_show", [scenario, script], [port, BigInt(from), BigInt(to), goodCrc ? 1 : 0, codes ? 1 : 0]);
  }

  draw(scenario, script, width, from = 0n, to = FOREVER) {
    return this.call("page_draw", [scenario, script], [BigInt(from), BigInt(to), width, 0]);
  }

  /** The stories of a port's offers up to a time. */
  why(scenario, script, port, to) {
    return this.call("page_why", [scenario, script], [port, 1, BigInt(to)]);
  }

  /** What is sure for each port, in every run of the charger. */
  guarantee(scenario, script) {
    return this.call("page_guarantee", [scenario, script]);
  }

  explain(scenario, script) {
    return this.call("page_explain", ["scenario", scenario, "script", script]);
  }

  packetCount(scenario, script, { port = 0, from = 0n, to = FOREVER } = {}) {
    return this.guarded(() => {
      const places = [];
      try {
        for (const text of [scenario, script]) places.push(this.given(text));
        const ending = this.exports.page_packet_count(...places.flat(), port, BigInt(from), BigInt(to), this.meterAt, this.lengthAt);
        return { ending, text: "", count: Number(this.length()) };
      } finally {
        for (const [place] of places) this.exports.unroom(place);
      }
    });
  }

  sweep(scenario, script, { port = 0, from = 0n, to = FOREVER, damaged = false, behind = 0 }, first, count) {
    return this.call("page_sweep", [scenario, script],
      [port, BigInt(from), BigInt(to), damaged ? 1 : 0, behind, BigInt(first), BigInt(count)]);
  }

  test(scenario, script) {
    return this.call("page_test", ["test", scenario, script]);
  }

  decode(log) {
    return this.call("page_decode", [log]);
  }

  /** How many microseconds a packet of so many objects is on the line. */
  lasts(objects) {
    return this.exports.page_packet_duration(objects);
  }

  hardResetLasts() {
    return this.exports.page_hard_reset_duration();
  }
}

/** The objects of lines of JSON. */
export function objectsOf(text) {
  return text ? JSON.parse(`[${text.trimEnd().replaceAll("\n", ",")}]`) : [];
}

/** What a call that didn't end well is told as. */
export function endingWords({ ending, why }) {
  return {
    [Ending.REFUSED]: "the scenario is refused",
    [Ending.NO_PORT]: "the scenario has no such port",
    [Ending.MEMORY]: "out of memory",
    [Ending.LONG]: "the script is too long: more than 16,777,216 bytes",
    [Ending.STOPPED]: `the browser stopped the bench, which has begun anew (${why})`,
  }[ending] ?? "";
}
