// The picture of a run: the chart of the budget, and a lane for each port, in a window of time.
import { CanvasPaint } from "./paint.js";
import { goneFrom } from "./ghost.js";
import { Kind, PHASES, SIDES, firstOf } from "./run.js";
import { seconds, span, watts } from "./words.js";

const LEFT = 84, RIGHT = 14, AXIS = 22, HEAD = 16;
const BAND = 15, ROW = 15, MARKS = 15, HEAT = 9, GAP = 8;
const LEAST_SPAN = 40, SNAP = 7;
/** Of more packets in a lane none has a label or a border. */
const FEW = 500, DENSE = 300, REST = 150;
/** The colours of Okabe and Ito, which stay apart for who doesn't see all colours. */
const PORTS = ["#e69f00", "#56b4e9", "#009e73", "#f0e442", "#0072b2", "#d55e00", "#cc79a7", "#999999"];
const PHASE_HEIGHTS = [3, 12, 15, 15, 6];
const STEPS = [1, 2, 5];
/** Units of time, each with the least end of a window that is in it. */
const TIMES = [["s", 1e6], ["ms", 1e3], ["µs", 0]];

/** Dashes; a long curve has none, since they take longer than all else. */
const dashes = (points, dash) => (points.length < FEW ? dash : undefined);

/** The step of an axis that has some eight of them. */
function niceStep(whole, count) {
  const rough = whole / count, power = 10 ** Math.floor(Math.log10(rough));
  const step = STEPS.map((it) => it * power).find((it) => it >= rough) ?? 10 * power;
  return Math.max(step, 1);
}

export class Picture {
  constructor(canvas, colours) {
    this.canvas = canvas;
    this.paints = new CanvasPaint(canvas);
    this.colours = colours;
    this.cursors = [null, null];
    this.hidden = new Set();
    this.view = { from: 0, to: 1 };
    this.holds = false;
    this.ghost = true;
    this.width = 800;
    this.heat = null;
    this.hover = -1;
    this.selected = -1;
    this.accepts = () => true;
  }

  // What is shown.

  show(run, before) {
    const whole = !this.run || (this.view.from === 0 && this.view.to === this.run.end);
    this.run = run;
    this.before = before;
    this.gone = before ? goneFrom(before, run) : [];
    this.hover = -1;
    if (whole) this.view = { from: 0, to: Math.max(run.end, 1) };
    else this.look(this.view.from, this.view.to);
    this.paint();
  }

  look(from, to) {
    const end = Math.max(this.run?.end ?? 1, 1), wide = Math.min(Math.max(to - from, LEAST_SPAN), end);
    const begin = Math.min(Math.max(from, 0), end - wide);
    this.view = { from: begin, to: begin + wide };
  }

  fit() {
    this.look(0, Infinity);
    this.paint();
  }

  /** Makes the window narrower or wider about a time, which stays where it is. */
  zoom(factor, about) {
    const { from, to } = this.view;
    this.look(about - (about - from) * factor, about + (to - about) * factor);
    this.paintMoving();
  }

  /** Paints while the window moves: of a long run roughly and without the holds, which follow once it rests. */
  paintMoving() {
    this.moves = true;
    clearTimeout(this.resting);
    this.resting = setTimeout(() => {
      this.moves = false;
      this.paint();
    }, REST);
    this.paint();
  }

  pan(part) {
    const wide = this.view.to - this.view.from;
    this.look(this.view.from + part * wide, this.view.to + part * wide);
    this.paintMoving();
  }

  /** Brings a time into the window, where it isn't. */
  reveal(at) {
    const { from, to } = this.view, wide = to - from;
    if (at < from + wide * 0.02 || at > to - wide * 0.02) this.look(at - wide / 2, at + wide / 2);
  }

  // Places.

  x(at) {
    return LEFT + ((at - this.view.from) * (this.width - LEFT - RIGHT)) / (this.view.to - this.view.from);
  }

  time(x) {
    const at = this.view.from + ((x - LEFT) * (this.view.to - this.view.from)) / (this.width - LEFT - RIGHT);
    return Math.round(Math.min(Math.max(at, 0), this.run?.end ?? 0));
  }

  get laneHeight() {
    return BAND + 2 * MARKS + 3 * ROW + (this.heat ? HEAT : 0) + GAP;
  }

  shownPorts() {
    return this.run ? this.run.lanes.map((_, place) => place + 1).filter((port) => !this.hidden.has(port)) : [];
  }

  /** How high the picture is, so that all lanes have room. */
  wanted() {
    return 210 + this.shownPorts().length * this.laneHeight;
  }

  chartBottom(height) {
    const lanes = this.shownPorts().length * this.laneHeight;
    return Math.max(HEAD + 90, Math.min(height - lanes - AXIS - 4, HEAD + 360));
  }

  // Painting.

  /** Paints once the browser paints next. */
  paint() {
    if (this.waits) return;
    this.waits = true;
    requestAnimationFrame(() => {
      this.waits = false;
      this.paintNow();
    });
  }

  /** While the window moves, what is scrolled out of sight isn't painted. */
  paintNow() {
    const { canvas } = this, { scrollTop, clientHeight } = canvas.parentElement, began = performance.now();
    if (!canvas.clientWidth || !canvas.clientHeight) return;
    const sight = this.moves ? [scrollTop, scrollTop + clientHeight] : undefined;
    this.paintTo(this.paints, canvas.clientWidth, canvas.clientHeight, sight);
    this.took = performance.now() - began;
  }

  paintTo(paint, width, height, sight = [0, height]) {
    Object.assign(this, { width, height, places: [], isLess: false, near: this.moves ? 2 : 0.8 });
    paint.begin(width, height, this.colours.paper, sight);
    if (this.run) this.paintAll(paint, sight);
    paint.end();
  }

  paintAll(paint, [from, to]) {
    const { width, height, laneHeight } = this, across = width - LEFT - RIGHT, bottom = this.chartBottom(height);
    this.paintGrid(paint, width, height, bottom);
    if (from < bottom) paint.within(LEFT, 0, across, bottom + 2, () => this.paintChart(paint, bottom));
    let top = bottom + AXIS;
    for (const port of this.shownPorts()) {
      if (top < to && top + laneHeight > from) {
        this.paintLaneNames(paint, port, top, width);
        paint.within(LEFT, top, across, laneHeight, () => this.paintLane(paint, port, top, width));
      }
      top += laneHeight;
    }
    this.paintLegend(paint, width);
    paint.within(LEFT - 1, 0, across + 2, height, () => this.paintCursors(paint, bottom, top, height));
  }

  /** The lines of the axes, with their values. Those across the chart shine through its areas. */
  paintGrid(paint, width, height, bottom) {
    const { colours, view } = this, step = niceStep(view.to - view.from, Math.max((width - LEFT) / 110, 2)), lines = [];
    for (let at = Math.ceil(view.from / step) * step; at <= view.to; at += step) {
      const x = Math.round(this.x(at));
      lines.push(x, HEAD, 1, bottom + 4 - HEAD, x, bottom + AXIS - 3, 1, height - bottom - AXIS + 3);
      const isLast = x > width - RIGHT - 24;
      paint.text(isLast ? width - 4 : x, bottom + 14, this.tick(at), colours.faint, { align: isLast ? "right" : "center" });
    }
    const top = this.top(), watt = niceStep(top, 4);
    for (let power = 0; power <= top; power += watt) {
      const y = Math.round(this.y(power, bottom));
      lines.push(LEFT, y, width - LEFT - RIGHT, 1);
      paint.line(LEFT, y + 0.5, width - RIGHT, y + 0.5, colours.paper, { alpha: 0.35 });
      paint.text(LEFT - 6, y + 4, watts(power), colours.faint, { align: "right" });
    }
    paint.rects(lines, colours.grid);
  }

  /** A time of the axis, in the unit that fits the window, without zeros at its end. */
  tick(at) {
    const [unit, size] = TIMES.find(([, least]) => this.view.to >= least);
    return `${Number((at / (size || 1)).toFixed(6))} ${unit}`;
  }

  /** The least margin of the window, and the step that has it. */
  leastShown() {
    const { curves } = this.run, [first, last] = this.stepsOf(curves), least = curves.leastMargin(first, Math.max(last, first + 1));
    return { ...least, at: Math.max(least.at, this.view.from) };
  }

  top() {
    return this.run.curves.greatest * 1.02;
  }

  y(power, bottom) {
    return bottom - (power * (bottom - HEAD)) / this.top();
  }

  /** The steps of a window, the one that stands at its begin too. */
  stepsOf(curves) {
    let low = 0, high = curves.at.length;
    while (low < high) {
      const middle = (low + high) >> 1;
      if (curves.at[middle] <= this.view.from) low = middle + 1;
      else high = middle;
    }
    const first = Math.max(low - 1, 0);
    let last = first;
    while (last < curves.at.length && curves.at[last] < this.view.to) last++;
    return [first, last];
  }

  /** The corners of a curve in the window. Of the steps within a pixel the extremes are drawn, or roughly the last. */
  corners(curves, values, bottom, rough = false) {
    const [first, last] = this.stepsOf(curves), points = [], { from, to } = this.view;
    const across = (this.width - LEFT - RIGHT) / (to - from), up = (bottom - HEAD) / this.top();
    let column = -1, low = 0, high = 0, y = 0;
    for (let step = first; step < last; step++) {
      const next = bottom - values[step] * up;
      if (next === y && column >= 0) continue;
      const x = Math.max(LEFT + (curves.at[step] - from) * across, LEFT - 1), pixel = Math.floor(x);
      if (pixel !== column) {
        if (column >= 0) points.push(x, y);
        points.push(x, next);
        column = pixel;
        low = high = next;
      } else if (!rough && (next < low || next > high)) {
        points.push(x, next);
        low = Math.min(low, next);
        high = Math.max(high, next);
      }
      y = next;
    }
    if (points.at(-1) !== y) points.push(points.at(-2), y);
    points.push(this.x(to), y);
    return points;
  }

  paintChart(paint, bottom) {
    const { run, colours } = this, { curves } = run, least = this.leastShown(), [first, last] = this.stepsOf(curves);
    const rough = this.moves && last - first > DENSE;
    const areas = curves.contracts.map((values, port) => ({ points: this.corners(curves, values, bottom, rough), fill: PORTS[port] }));
    paint.areas(areas, bottom, colours.area, colours.paper);
    // The outlines of areas that change at each pixel would hide them.
    const isDense = ({ length }) => length > this.width;
    if (!rough) for (const { points } of areas) if (!isDense(points)) paint.path(points, { stroke: colours.ink, width: 0.7, alpha: 0.8 });
    if (this.holds && !rough) {
      for (let port = run.ports - 1; port >= 0; port--) {
        const points = this.corners(curves, curves.holds[port], bottom), width = isDense(points) ? 0.7 : 1.4;
        paint.path(points, { stroke: colours.ports[port], width, dash: dashes(points, [5, 3]) });
      }
    }
    if (this.ghost && this.before) this.paintGhost(paint, bottom, rough);
    paint.path(this.corners(curves, curves.budget, bottom), { stroke: colours.ink, width: 2 });
    if (!curves.all[least.step]) return;
    const x = this.x(least.at), y = this.y(curves.budget[least.step], bottom), lower = this.y(curves.all[least.step], bottom);
    paint.line(x, y, x, Math.max(lower, y + 3), colours.fault, { width: 4 });
  }

  paintGhost(paint, bottom, rough) {
    const { curves } = this.before, { colours } = this;
    for (const [values, width] of [[curves.all, 2], [curves.budget, 1]]) {
      const points = this.corners(curves, values, bottom, rough);
      paint.path(points, { stroke: colours.ghost, width, dash: dashes(points, [2, 3]) });
    }
  }

  paintLegend(paint, width) {
    const { colours, run } = this, least = this.leastShown();
    let x = LEFT;
    const words = (text, colour = colours.faint) => {
      paint.text(x, 11, text, colour);
      x += text.length * 6 + 12;
    };
    for (let port = 1; port <= run.ports; port++) {
      paint.rect(x, 3, 9, 9, PORTS[port - 1]);
      x += 13;
      words(`port ${port}`);
    }
    paint.line(x, 8, x + 14, 8, colours.ink, { width: 2 });
    x += 18;
    words("budget");
    if (this.holds) {
      paint.line(x, 8, x + 14, 8, colours.ink, { dash: [5, 3] });
      x += 18;
      words("holds");
    }
    if (this.ghost && this.before) {
      paint.line(x, 8, x + 14, 8, colours.ghost, { width: 2, dash: [2, 3] });
      x += 18;
      words("before the edit");
    }
    if (this.isLess && x < width - 560) words("what stands close is drawn together: zoom in");
    const margin = `${watts(least.left)} at ${seconds(least.at)} s`;
    const told = x < width - 340 ? `least margin in this window: ${margin}` : `least margin ${margin}`;
    if (x < width - 250) paint.text(width - RIGHT, 11, told, colours.fault, { align: "right" });
  }

  paintLaneNames(paint, port, top, width) {
    const { colours } = this, rows = ["events", "faults", "SOP src", "snk", "SOP' cable", ...(this.heat ? ["sweep"] : [])];
    paint.line(0, top - 3, width, top - 3, colours.grid);
    paint.rect(6, top + 2, 9, 9, PORTS[port - 1]);
    paint.text(20, top + 11, `port ${port}`, colours.ink, { size: 12, bold: true });
    rows.forEach((name, row) => paint.text(LEFT - 6, top + BAND + row * ROW + 11, name, colours.faint, { align: "right", size: 10 }));
  }

  paintLane(paint, port, top, width) {
    const lane = this.run.lanes[port - 1];
    this.paintPhases(paint, lane, top);
    if (this.ghost && this.before?.lanes[port - 1]) this.paintGhostLane(paint, this.before.lanes[port - 1], top);
    this.paintMarks(paint, lane.events, top + BAND, this.colours.event, "events", width);
    this.paintMarks(paint, lane.faults, top + BAND + MARKS, this.colours.fault, "faults", width);
    if (this.ghost && this.gone[port - 1]) this.paintGone(paint, this.gone[port - 1], top + BAND + 2 * MARKS);
    this.paintPackets(paint, lane, top + BAND + 2 * MARKS, width);
    if (this.heat) this.paintHeat(paint, port, top + BAND + 2 * MARKS + 3 * ROW);
  }

  paintPhases(paint, lane, top) {
    const { run, view, colours } = this, { phases } = lane, wide = PHASES.map(() => []), narrow = PHASES.map(() => []), labels = [];
    let place = 0, done = -1;
    while (place + 1 < phases.length && phases[place + 1].at <= view.from) place++;
    for (; place < phases.length && phases[place].at < view.to; place++) {
      const { at, phase, line } = phases[place], to = Math.min(this.x(phases[place + 1]?.at ?? run.end), this.x(view.to));
      const begin = Math.max(this.x(at), LEFT, done), high = PHASE_HEIGHTS[phase];
      if (to - done < this.near) continue;
      (to - begin > 9 ? wide : narrow)[phase].push(begin, top + BAND - high, to - begin, high);
      const words = (phases[place].words ??= phase === 2 ? this.contractLabel(line) : PHASES[phase]);
      if (to - begin > words.length * 6 + 8 && high > 6) labels.push({ begin, high, words });
      done = to;
    }
    PHASES.forEach((_, phase) => {
      paint.rects(narrow[phase], colours.phases[phase]);
      paint.rects(wide[phase], colours.phases[phase], colours.edge);
    });
    for (const { begin, high, words } of labels) {
      paint.text(begin + 4, top + BAND - 4, words, colours.onPhase, { size: high > 12 ? 11 : 10 });
    }
  }

  contractLabel(line) {
    if (line < 0) return PHASES[2];
    const { voltage_mv: mv, current_ma: ma } = this.run.line(line);
    return `${mv / 1e3} V ${(ma / 1e3).toFixed(2)} A`;
  }

  paintGhostLane(paint, lane, top) {
    const { before, view, colours } = this;
    lane.phases.forEach(({ at, phase }, place) => {
      const to = lane.phases[place + 1]?.at ?? before.end;
      const isSeen = phase === 2 && to > view.from && at < view.to;
      if (isSeen) paint.rect(this.x(at), top - 2, Math.max(this.x(to) - this.x(at), 1), 2, colours.ghost);
    });
  }

  /** Ticks, and behind each that stands alone its words; behind several that stand close how many there are. */
  paintMarks(paint, lines, top, colour, name, width) {
    const { run, view } = this, ticks = [];
    let close = 0, last = -9;
    for (let place = firstOf(lines, run.at, view.from); place < lines.length && run.at[lines[place]] <= view.to; place++) {
      const line = lines[place], x = this.x(run.at[line]);
      const next = place + 1 < lines.length ? this.x(run.at[lines[place + 1]]) : Infinity;
      close++;
      if (x - last >= this.near) {
        ticks.push(x - 0.75, top, 1.5, MARKS - 2);
        this.found(line, x - 3, top, 6, MARKS);
        last = x;
      } else {
        this.isLess = true;
      }
      if (next - x < 46) continue;
      const words = close > 1 ? `${close} ${name}` : this.markWords(run.line(line)), room = words.length * 5.6 + 6;
      close = 0;
      if (room > Math.min(next, width - RIGHT + 4) - x) continue;
      paint.text(x + 4, top + 10, words, colour, { size: 10 });
      this.found(line, x, top, room, MARKS);
    }
    paint.rects(ticks, colour);
  }

  markWords(line) {
    if (line.kind === "event") return `${line.id} ${line.event}${line.demand_mw ? ` ${line.demand_mw / 1000} W` : ""}`;
    if (line.kind === "budget") return `budget ${watts(line.budget_uw)}`;
    const name = line.fault.replaceAll("_", " ").replace("goodcrc", "GoodCRC");
    return [name, line.message, line.side, line.id].filter((it) => it !== undefined).join(" ");
  }

  rowOf(line, run = this.run) {
    return run.prime[line] ? 2 : run.side[line] === 0 ? 0 : 1;
  }

  /** The packets of the run before the edit that this one hasn't, as empty boxes. */
  paintGone(paint, gone, top) {
    const { before, view, colours } = this, scale = (this.width - LEFT - RIGHT) / (view.to - view.from), boxes = [], last = [-9, -9, -9];
    const begin = Math.max(firstOf(gone, before.at, view.from) - 1, 0);
    for (const line of gone.slice(begin, firstOf(gone, before.at, view.to + 1))) {
      const row = this.rowOf(line, before), x = LEFT + (before.at[line] - view.from) * scale;
      if (x - last[row] < this.near) continue;
      boxes.push(x, top + row * ROW, Math.max(before.lasts[line] * scale, 2), ROW - 2);
      last[row] = x;
    }
    paint.rects(boxes, colours.paper, colours.ghost);
  }

  paintPackets(paint, lane, top, width) {
    const { run, view } = this, { packets } = lane, scale = (width - LEFT - RIGHT) / (view.to - view.from);
    const first = Math.max(firstOf(packets, run.at, view.from) - 1, 0), last = firstOf(packets, run.at, view.to + 1);
    const light = this.hover >= 0 && run.isPacket(this.hover) ? run.exchange[this.hover] : -1;
    const close = [null, null, null], joined = SIDES.map(() => []), lost = [], bad = [], isNear = last - first < FEW;
    for (let place = first; place < last; place++) {
      const line = packets[place];
      if (!this.accepts(line)) continue;
      const row = this.rowOf(line), x = LEFT + (run.at[line] - view.from) * scale, wide = Math.max(run.lasts[line] * scale, 1);
      const isBad = run.kind[line] === Kind.hard_reset || run.fate[line] === 2;
      const alpha = light < 0 || run.exchange[line] === light ? 1 : 0.3;
      if (isNear || line === this.selected || (light >= 0 && alpha === 1)) {
        this.paintPacket(paint, line, x, top + row * ROW, wide, alpha);
        if (isNear) this.labelPacket(paint, lane, place, x, top + row * ROW, wide, alpha);
      } else if (isBad || run.fate[line]) {
        (isBad ? bad : lost).push(x, top + row * ROW + 1, wide, ROW - 3);
      } else {
        // Packets of a row that stand less than a pixel or two apart are painted as one.
        const side = run.side[line], open = close[row];
        if (open && open.side === side && x - open.to < this.near) {
          open.to = Math.max(open.to, x + wide);
          this.isLess = true;
        } else {
          if (open) joined[open.side].push(open.from, top + row * ROW + 1, open.to - open.from, ROW - 3);
          close[row] = { from: x, to: x + wide, side };
        }
      }
    }
    close.forEach((open, row) => open && joined[open.side].push(open.from, top + row * ROW + 1, open.to - open.from, ROW - 3));
    joined.forEach((list, side) => paint.rects(list, this.colours.sides[side]));
    paint.rects(lost, this.colours.paper, this.colours.fault);
    paint.rects(bad, this.colours.fault, this.colours.fault);
  }

  paintPacket(paint, line, x, y, wide, alpha) {
    const { run, colours } = this, isReset = run.kind[line] === Kind.hard_reset;
    const fill = isReset || run.fate[line] === 2 ? colours.fault : run.fate[line] === 1 ? colours.paper : colours.sides[run.side[line]];
    const stroke = run.fate[line] || wide > 4 ? (run.fate[line] ? colours.fault : colours.edge) : undefined;
    paint.rect(x, y + 1, wide, ROW - 3, fill, { stroke, alpha, dash: run.fate[line] === 1 && wide > 6 ? [3, 2] : undefined });
    if (run.fate[line]) this.paintCross(paint, x, y + ROW / 2 - 0.5, alpha);
    if (line === this.selected) paint.rect(x - 2, y - 1, wide + 4, ROW, null, { stroke: colours.select });
  }

  /** The cross at the start of a packet that is lost or damaged. */
  paintCross(paint, x, y, alpha) {
    for (const down of [4, -4]) paint.line(x - 4, y - down, x + 4, y + down, this.colours.fault, { width: 2, alpha });
  }

  /** What stands at a packet: its message, and what became of it by which event where it didn't arrive whole. */
  packetWords(line) {
    const { run } = this, message = run.messages[run.message[line]];
    if (!run.fate[line]) return message;
    const { fate, by_event: event } = run.line(line);
    return `${message} ${fate} by ${event}`;
  }

  /** A label in the box of a packet, or behind it up to the next packet of its row. */
  labelPacket(paint, lane, place, x, y, wide, alpha) {
    const { run, colours } = this, line = lane.packets[place], words = this.packetWords(line), room = words.length * 5.9 + 6;
    if (wide >= room) {
      const from = Math.max(x, LEFT), ink = run.fate[line] === 1 ? colours.ink : colours.onSide;
      if (x + wide - from >= room) paint.text(from + 3, y + 10, words, ink, { size: 10, alpha });
      return;
    }
    if (words === "GoodCRC" || this.nextOfRow(lane, place) - x < wide + room) return;
    paint.text(x + wide + 3, y + 10, words, colours.ink, { size: 10, alpha });
  }

  /** Where the next packet of the same row begins. */
  nextOfRow({ packets }, place) {
    const row = this.rowOf(packets[place]);
    for (let next = place + 1; next < Math.min(place + 12, packets.length); next++) {
      if (this.accepts(packets[next]) && this.rowOf(packets[next]) === row) return this.x(this.run.at[packets[next]]);
    }
    return place + 12 < packets.length ? this.x(this.run.at[packets[place + 12]]) : Infinity;
  }

  paintHeat(paint, port, top) {
    const { colours, view } = this, cells = colours.heat.map(() => []), lower = colours.heat.map(() => []);
    for (const cell of this.heat.cells) {
      if (cell.port !== port || cell.at < view.from || cell.at > view.to) continue;
      const x = this.x(cell.at);
      (cell.lower ? lower : cells)[cell.heat].push(x - 1, top, 3, HEAT - 1);
      this.places.push({ cell, x: x - 3, y: top, width: 7, height: HEAT });
    }
    colours.heat.forEach((colour, heat) => {
      paint.rects(cells[heat], colour);
      paint.rects(lower[heat], colour, colours.fault);
    });
  }

  paintCursors(paint, bottom, top, height) {
    const { colours } = this;
    if (this.selected >= 0) {
      const x = this.x(this.run.at[this.selected]);
      paint.line(x, HEAD, x, height, colours.select, { width: 1, alpha: 0.6 });
    }
    this.cursors.forEach((at, place) => {
      if (at === null) return;
      const x = this.x(at);
      paint.line(x, HEAD, x, height, colours.cursors[place], { width: 1.5, dash: place ? [5, 3] : undefined });
      paint.rect(x - 6, HEAD, 12, 12, colours.cursors[place]);
      paint.text(x, HEAD + 10, "AB"[place], colours.paper, { align: "center", size: 10, bold: true });
    });
    const [a, b] = this.cursors;
    if (a === null || b === null) return;
    const left = this.x(Math.min(a, b)), right = this.x(Math.max(a, b)), y = HEAD + 18;
    paint.line(left, y, right, y, colours.ink);
    if (right - left > 60) paint.text((left + right) / 2, y + 12, span(Math.abs(b - a)), colours.ink, { align: "center", bold: true });
  }

  // Pointing.

  found(line, x, y, width, height) {
    this.places.push({ line, x, y, width, height });
  }

  /** What stands at a place: the line, or the packet of a sweep, on top. */
  at(x, y) {
    if (!this.places || x < LEFT) return null;
    for (let place = this.places.length - 1; place >= 0; place--) {
      const it = this.places[place];
      if (x >= it.x && x <= it.x + it.width && y >= it.y && y <= it.y + it.height) return it;
    }
    return this.packetAt(x, y);
  }

  /** The packet at a place, or the nearest of its row; where there is none, that of the run before the edit. */
  packetAt(x, y) {
    const { laneHeight } = this, top = this.chartBottom(this.height) + AXIS, number = Math.floor((y - top) / laneHeight);
    const port = this.shownPorts()[number], row = Math.floor((y - top - number * laneHeight - BAND - 2 * MARKS) / ROW);
    if (port === undefined || row < 0 || row > 2) return null;
    const line = this.nearest(this.run, this.run.lanes[port - 1].packets, x, row, this.accepts);
    if (line >= 0) return { line };
    const gone = this.ghost && this.gone[port - 1] ? this.nearest(this.before, this.gone[port - 1], x, row, () => true) : -1;
    return gone >= 0 ? { line: gone, isGone: true } : null;
  }

  /** The packet of a row that is nearest to a place, or -1. */
  nearest(run, packets, x, row, accepts) {
    const scale = (this.width - LEFT - RIGHT) / (this.view.to - this.view.from);
    let found = -1, least = 4;
    for (let place = firstOf(packets, run.at, this.time(x - 4) - 2000); place < packets.length; place++) {
      const line = packets[place], begin = this.x(run.at[line]);
      if (begin > x + 4) break;
      if (this.rowOf(line, run) !== row || !accepts(line)) continue;
      const far = Math.max(begin - x, x - begin - run.lasts[line] * scale, 0);
      if (far <= least) [found, least] = [line, far];
    }
    return found;
  }

  /** A time near a place: that of the nearest edge of a packet, where one is near. */
  snapped(x) {
    const at = this.time(x), { run } = this;
    let found = at, least = SNAP;
    for (let line = run.firstAt(Math.max(this.time(x - SNAP) - 2000, 0)); line < run.count && run.at[line] <= this.time(x + SNAP); line++) {
      for (const edge of run.isPacket(line) ? [run.at[line], run.at[line] + run.lasts[line]] : [run.at[line]]) {
        const far = Math.abs(this.x(edge) - x);
        if (far < least) [found, least] = [edge, far];
      }
    }
    return found;
  }

  /** What a reader of the screen is told of the picture. */
  summary() {
    const { run } = this, { least } = run.curves;
    const contracts = run.lanes.map((lane, place) => `port ${place + 1} ${PHASES[lane.phases.at(-1).phase]} at the end`);
    return `${run.ports} ports, ${run.lanes.reduce((sum, lane) => sum + lane.packets.length, 0)} packets in ${span(run.end)}; ` +
      `${contracts.join(", ")}; least margin ${watts(least.left)} at ${seconds(least.at)} s`;
  }
}

export const PORT_COLOURS = PORTS;
export const sideName = (side) => SIDES[side];
