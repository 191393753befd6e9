// A run, read from the lines of `show --json`. A long run has a hundred thousand lines, so what the picture and the tables need of each
// stands in columns, and a line is read whole only where it is looked at.

export const KINDS = ["packet", "hard_reset", "state", "event", "fault", "contract", "contract_lost", "hold", "budget", "offer",
  "request", "keep"];
export const Kind = Object.fromEntries(KINDS.map((name, place) => [name, place]));
export const SIDES = ["src", "snk", "cbl"];
export const PHASES = ["detached", "negotiating", "contract", "hard reset", "disabled"];
const PHASE_OF_STATE = {
  SRC_Off: 0, PE_SRC_Disabled: 4, PE_SRC_Hard_Reset: 3, PE_SRC_Hard_Reset_Received: 3, PE_SRC_Transition_to_default: 3,
};
const OBJECT = '"object":"';

/** The end, the budget and the floors of a scenario, from its lines as `:list` has them. */
export function sceneOf(list) {
  const scene = { end: 0, budget: 0, floors: [] };
  for (const line of list.split("\n")) {
    const words = line.split(" ");
    if (words[0] === "end") scene.end = Number(words[1]);
    else if (words[0] === "budget") scene.budget = Number(words[1]) * 1000;
    else if (words[0] === "floor") scene.floors.push(Number(words[2]) * 1000);
    else if (words[0] === "cable" || words[0] === "sink" || words[0] === "insert") break;
  }
  return scene;
}

/** The number that stands in a text, and the place behind it. */
function numberAt(text, from) {
  let value = 0, at = from;
  for (let digit = text.charCodeAt(at) - 48; digit >= 0 && digit <= 9; digit = text.charCodeAt(++at) - 48) value = value * 10 + digit;
  return [value, at];
}

/** The word that is the value of a key, from a place on. */
function wordOf(text, key, from) {
  const begin = text.indexOf(key, from) + key.length;
  return text.slice(begin, text.indexOf('"', begin));
}

/** What stands at the end of each instant that changes a contract, a hold or the budget. */
class Curves {
  constructor(scene) {
    this.ports = scene.floors.length;
    this.wide = 1 + 2 * this.ports;
    this.at = [];
    this.values = [];
    this.now = [scene.budget, ...new Array(this.ports).fill(0), ...scene.floors];
    this.time = 0;
    this.changed = true;
  }

  set(place, value, time) {
    if (time !== this.time) this.settle();
    this.time = time;
    this.now[place] = value;
    this.changed = true;
  }

  settle() {
    if (!this.changed) return;
    this.at.push(this.time);
    for (const value of this.now) this.values.push(value);
    this.changed = false;
  }

  /** Makes of each curve a column: the budget, what the contracts of the first ports take together, and upon those of the ports before
   * it what a port holds. */
  end() {
    this.settle();
    const { at, values, wide, ports } = this, count = at.length;
    const column = (value) => Float64Array.from({ length: count }, (_, step) => value(step * wide));
    const uponContracts = (port, place) => {
      const below = this.contracts[port - 1];
      return column((begin) => (below ? below[begin / wide] : 0) + values[begin + place]);
    };
    this.at = Uint32Array.from(at);
    this.budget = column((begin) => values[begin]);
    this.contracts = [];
    for (let port = 0; port < ports; port++) this.contracts.push(uponContracts(port, 1 + port));
    this.holds = this.contracts.map((_, port) => uponContracts(port, 1 + ports + port));
    this.values = null;
    this.all = this.contracts[ports - 1];
    this.least = this.leastMargin(0, count);
    this.greatest = this.budget.reduce((most, it) => Math.max(most, it), 1e6);
  }

  /** Of some steps that which leaves least of the budget, the first of them. */
  leastMargin(from, to) {
    let found = from, least = Infinity;
    for (let step = from; step < to; step++) {
      const left = this.budget[step] - this.all[step];
      if (left < least) [found, least] = [step, left];
    }
    return { at: this.at[found] ?? 0, left: least, step: found };
  }
}

/** What a lane of the picture has: places of lines, by what they are, and from when on its phases stand. */
class Lane {
  constructor() {
    this.packets = [];
    this.events = [];
    this.faults = [];
    this.phases = [{ at: 0, phase: 0, line: -1 }];
    this.state = 0;
    this.contract = -1;
    this.rests = true;
    this.set = 0;
    this.exchange = 0;
  }

  /** What stands from a time on: the contract of a line, or what the state of the source is without one. */
  stand(at) {
    const line = this.contract, phase = line >= 0 ? 2 : this.state, last = this.phases.at(-1);
    if (phase === last.phase && line === last.line) return;
    if (last.at === at) this.phases.pop();
    this.phases.push({ at, phase, line });
  }
}

export class Run {
  /** Of the text of `show --json`, the scene, and how long packets are on the line by how many objects they have. */
  constructor(text, scene, lasts, hardResetLasts) {
    Object.assign(this, { text, scene, lastsOf: lasts, hardResetLasts });
    this.messages = ["Hard_Reset"];
    this.messageOf = new Map([["Hard_Reset", 0]]);
    this.lanes = scene.floors.map(() => new Lane());
    this.curves = new Curves(scene);
    this.exchanges = 0;
    this.split();
    for (let line = 0; line < this.count; line++) this.read(line);
    this.curves.end();
  }

  get end() {
    return this.scene.end;
  }

  get ports() {
    return this.lanes.length;
  }

  /** Finds where lines begin, and makes the columns. */
  split() {
    const begins = [];
    for (let at = 0; at < this.text.length; at = this.text.indexOf("\n", at) + 1) begins.push(at);
    this.count = begins.length;
    begins.push(this.text.length);
    this.begins = Uint32Array.from(begins);
    for (const name of ["at", "since", "exchange"]) this[name] = new Uint32Array(this.count);
    this.lasts = new Uint16Array(this.count);
    for (const name of ["port", "kind", "side", "prime", "fate", "message"]) this[name] = new Uint8Array(this.count);
  }

  /** Reads the head of a line, and what of it stands in columns, lanes and curves. */
  read(line) {
    const { text } = this, [at, afterAt] = numberAt(text, this.begins[line] + 9);
    const [since, afterSince] = numberAt(text, afterAt + 12), [port, afterPort] = numberAt(text, afterSince + 8);
    const kind = KINDS.indexOf(text.slice(afterPort + 9, text.indexOf('"', afterPort + 9)));
    this.at[line] = at;
    this.since[line] = since;
    this.port[line] = port;
    this.kind[line] = kind;
    if (kind === Kind.packet || kind === Kind.hard_reset) this.readPacket(line, afterPort);
    else this.readOther(line, this.lanes[port - 1]);
  }

  readPacket(line, from) {
    const { text } = this, lane = this.lanes[this.port[line] - 1];
    this.side[line] = SIDES.indexOf(wordOf(text, '"side":"', from));
    if (this.kind[line] === Kind.packet) {
      const fate = wordOf(text, '"fate":"', from);
      this.fate[line] = fate === "whole" ? 0 : fate === "lost" ? 1 : 2;
      this.prime[line] = wordOf(text, '"set":"', from) === "SOP" ? 0 : 1;
      this.message[line] = this.numberOf(wordOf(text, '"message":"', from));
      this.lasts[line] = this.lastsOf[this.objects(line)];
    } else {
      this.lasts[line] = this.hardResetLasts;
    }
    // A packet begins an exchange where both sides rest, where the ordered set is another than before, and as a Hard Reset.
    const set = this.kind[line] === Kind.hard_reset ? -1 : this.prime[line];
    if (lane.rests || set !== lane.set) lane.exchange = ++this.exchanges;
    lane.rests = false;
    lane.set = set;
    this.exchange[line] = lane.exchange;
    lane.packets.push(line);
  }

  /** How many objects a packet has. */
  objects(line) {
    const end = this.begins[line + 1];
    let count = 0;
    if (this.text.charCodeAt(end - 4) === 91) return 0;
    for (let at = this.text.indexOf(OBJECT, this.begins[line]); at >= 0 && at < end; at = this.text.indexOf(OBJECT, at + 1)) count++;
    return count;
  }

  numberOf(message) {
    let number = this.messageOf.get(message);
    if (number === undefined) {
      number = this.messages.push(message) - 1;
      this.messageOf.set(message, number);
    }
    return number;
  }

  readOther(line, lane) {
    const kind = this.kind[line], at = this.at[line], port = this.port[line];
    if (kind === Kind.event) lane.events.push(line);
    if (kind === Kind.fault) lane.faults.push(line);
    if (kind === Kind.state) this.readState(line, lane);
    if (kind === Kind.contract || kind === Kind.contract_lost) {
      const told = this.line(line);
      lane.contract = kind === Kind.contract ? line : -1;
      lane.stand(at);
      this.curves.set(port, kind === Kind.contract ? told.voltage_mv * told.current_ma : 0, at);
    }
    if (kind === Kind.hold) this.curves.set(this.ports + port, this.line(line).after_uw, at);
    if (kind === Kind.budget) {
      this.curves.set(0, this.line(line).budget_uw, at);
      lane.events.push(line);
    }
  }

  readState(line, lane) {
    const source = wordOf(this.text, '"source":"', this.begins[line]), sink = wordOf(this.text, '"sink":"', this.begins[line]);
    lane.state = PHASE_OF_STATE[source] ?? 1;
    lane.stand(this.at[line]);
    // Where both sides are ready, or nothing is attached, the next packet begins another exchange.
    if ((source === "PE_SRC_Ready" && sink === "PE_SNK_Ready") || lane.state === 0) lane.rests = true;
  }

  /** A line, read whole. */
  line(place) {
    return JSON.parse(this.text.slice(this.begins[place], this.begins[place + 1]));
  }

  isPacket(line) {
    return this.kind[line] <= Kind.hard_reset;
  }

  /** Lost, damaged, a Hard Reset or a fault. */
  isUnusual(line) {
    return this.kind[line] === Kind.fault || this.kind[line] === Kind.hard_reset || this.fate[line] !== 0;
  }

  /** The first line that isn't before a time. */
  firstAt(at) {
    let low = 0, high = this.count;
    while (low < high) {
      const middle = (low + high) >> 1;
      if (this.at[middle] < at) low = middle + 1;
      else high = middle;
    }
    return low;
  }
}

/** The first place of a list of lines whose line isn't before a time. */
export function firstOf(lines, times, at) {
  let low = 0, high = lines.length;
  while (low < high) {
    const middle = (low + high) >> 1;
    if (times[lines[middle]] < at) low = middle + 1;
    else high = middle;
  }
  return low;
}
