// Two ways to paint the same picture: on a canvas, and as the text of an SVG.

const FONT = "system-ui, sans-serif";
/** A row of up to so many pixels is quicker set one by one. */
const THIN = 12;

/** A colour as the pixels of a canvas have it, by its six digits. */
const PIXELS = new Map();
function pixelOf(colour) {
  let found = PIXELS.get(colour);
  if (found === undefined) {
    const [red, green, blue] = [1, 3, 5].map((at) => parseInt(colour.slice(at, at + 2), 16));
    PIXELS.set(colour, (found = new Uint32Array(Uint8Array.of(red, green, blue, 255).buffer)[0]));
  }
  return found;
}

/** A colour that lies upon another, which shines through it. */
export function mixed(colour, alpha, below) {
  const part = (at) => Math.round(parseInt(colour.slice(at, at + 2), 16) * alpha + parseInt(below.slice(at, at + 2), 16) * (1 - alpha));
  return `#${[1, 3, 5].map((at) => part(at).toString(16).padStart(2, "0")).join("")}`;
}

/** Rectangles without number, painted into memory at whole pixels: a browser takes far longer for each of them. */
class Pixels {
  resize(width, height) {
    if (this.image?.width === width && this.image.height === height) return;
    this.image = new ImageData(width, height);
    this.all = new Uint32Array(this.image.data.buffer);
  }

  /** A rectangle by its edges, within the clip; none is thinner than a pixel. */
  fill(left, top, right, bottom, pixel, clip) {
    const { width } = this.image, begin = Math.max(Math.round(left), clip[0]), first = Math.max(Math.round(top), clip[1]);
    const end = Math.min(Math.max(Math.round(right), Math.round(left) + 1), clip[2]);
    const last = Math.min(Math.max(Math.round(bottom), Math.round(top) + 1), clip[3]);
    for (let row = first; row < last; row++) {
      const from = row * width + begin, to = row * width + end;
      if (to - from > THIN) this.all.fill(pixel, from, to);
      else for (let at = from; at < to; at++) this.all[at] = pixel;
    }
  }

  /** The highest place of a curve in each column of a clip, of corners as x and y; where it only falls it stands at its lower side. */
  tops(points, ratio, bottom, [left, , right]) {
    const tops = new Int32Array(right - left).fill(bottom);
    for (let at = 0; at + 3 < points.length; at += 2) {
      const falls = points[at] === points[at + 2] && points[at + 3] > points[at + 1] && points[at - 1] === points[at + 1];
      if (falls) continue;
      const begin = Math.round(points[at] * ratio) - left, end = Math.max(Math.round(points[at + 2] * ratio) - left, begin + 1);
      const top = Math.round(points[at + 1] * ratio);
      for (let column = Math.max(begin, 0); column < Math.min(end, tops.length); column++) tops[column] = Math.min(tops[column], top);
    }
    return tops;
  }

  /** Fills each column from one height down to another. */
  columns(tops, bottoms, pixel, [left, first, , last]) {
    const { width } = this.image, { all } = this;
    for (let column = 0; column < tops.length; column++) {
      const from = Math.max(tops[column], first) * width + left + column, to = Math.min(bottoms[column], last) * width;
      for (let at = from; at < to; at += width) all[at] = pixel;
    }
  }
}

/** Paints on a canvas. What `rects` and `area` paint lies below all else, in one image; the rest follows at the end, in its order. */
export class CanvasPaint {
  constructor(canvas) {
    Object.assign(this, { canvas, to: canvas.getContext("2d", { alpha: false }), pixels: new Pixels(), later: [] });
  }

  /** Begins a picture, or the part of it between two heights; what stands outside stays. */
  begin(width, height, paper, [from, to] = [0, height]) {
    const { canvas, pixels } = this, ratio = window.devicePixelRatio || 1;
    if (canvas.width !== Math.round(width * ratio) || canvas.height !== Math.round(height * ratio)) {
      canvas.width = Math.round(width * ratio);
      canvas.height = Math.round(height * ratio);
    }
    Object.assign(this, { ratio, later: [], part: [Math.floor(from * ratio), Math.min(Math.ceil(to * ratio), canvas.height)] });
    this.clip = this.whole = [0, this.part[0], canvas.width, this.part[1]];
    pixels.resize(canvas.width, canvas.height);
    pixels.all.fill(pixelOf(paper), this.part[0] * canvas.width, this.part[1] * canvas.width);
  }

  end() {
    const { to, ratio, canvas, part: [from, until] } = this;
    to.setTransform(1, 0, 0, 1, 0, 0);
    to.putImageData(this.pixels.image, 0, 0, 0, from, canvas.width, until - from);
    to.setTransform(ratio, 0, 0, ratio, 0, 0);
    to.save();
    to.beginPath();
    to.rect(0, from / ratio, canvas.width / ratio, (until - from) / ratio);
    to.clip();
    for (const paint of this.later) paint();
    to.restore();
  }

  rect(x, y, width, height, fill, { stroke, alpha = 1, dash } = {}) {
    const { to } = this;
    this.later.push(() => {
      to.globalAlpha = alpha;
      if (fill) {
        to.fillStyle = fill;
        to.fillRect(x, y, width, height);
      }
      if (stroke) {
        to.strokeStyle = stroke;
        to.lineWidth = 1;
        to.setLineDash(dash ?? []);
        to.strokeRect(x + 0.5, y + 0.5, Math.max(width - 1, 0), Math.max(height - 1, 0));
      }
      to.globalAlpha = 1;
    });
  }

  /** Many rectangles of one colour, each as x, y, width and height. */
  rects(list, fill, stroke) {
    const { pixels, clip, ratio } = this, inner = pixelOf(fill), edge = stroke && pixelOf(stroke);
    for (let at = 0; at < list.length; at += 4) {
      const left = list[at] * ratio, top = list[at + 1] * ratio, right = left + list[at + 2] * ratio, bottom = top + list[at + 3] * ratio;
      pixels.fill(left, top, right, bottom, edge ?? inner, clip);
      if (edge && right - left > 2) pixels.fill(left + 1, top + 1, right - 1, bottom - 1, inner, clip);
    }
  }

  /** The areas below curves of steps, each upon the one before it: their corners as x and y, and their colours. */
  areas(curves, bottom, alpha, paper) {
    const { pixels, clip, ratio } = this, base = Math.round(bottom * ratio);
    let below = new Int32Array(clip[2] - clip[0]).fill(base);
    for (const { points, fill } of curves) {
      const tops = pixels.tops(points, ratio, base, clip);
      pixels.columns(tops, below, pixelOf(mixed(fill, alpha, paper)), clip);
      below = tops;
    }
  }

  line(x, y, toX, toY, stroke, { width = 1, dash, alpha = 1 } = {}) {
    this.path([x, y, toX, toY], { stroke, width, dash, alpha });
  }

  path(points, { stroke, width = 1, dash, alpha = 1 }) {
    const { to } = this;
    this.later.push(() => {
      to.globalAlpha = alpha;
      to.beginPath();
      to.moveTo(points[0], points[1]);
      for (let at = 2; at < points.length; at += 2) to.lineTo(points[at], points[at + 1]);
      to.strokeStyle = stroke;
      to.lineWidth = width;
      to.setLineDash(dash ?? []);
      to.stroke();
      to.globalAlpha = 1;
    });
  }

  text(x, y, words, fill, { align = "left", size = 11, bold = false, alpha = 1 } = {}) {
    const { to } = this;
    this.later.push(() => {
      to.globalAlpha = alpha;
      to.font = `${bold ? "600 " : ""}${size}px ${FONT}`;
      to.textAlign = align;
      to.fillStyle = fill;
      to.fillText(words, x, y);
      to.globalAlpha = 1;
    });
  }

  /** Paints within a part alone. */
  within(x, y, width, height, paint) {
    const { to, ratio, whole } = this;
    this.clip = [Math.max(Math.round(x * ratio), whole[0]), Math.max(Math.round(y * ratio), whole[1]),
      Math.min(Math.round((x + width) * ratio), whole[2]), Math.min(Math.round((y + height) * ratio), whole[3])];
    this.later.push(() => {
      to.save();
      to.beginPath();
      to.rect(x, y, width, height);
      to.clip();
    });
    paint();
    this.later.push(() => to.restore());
    this.clip = whole;
  }
}

const ESCAPES = { "&": "&amp;", "<": "&lt;", ">": "&gt;", '"': "&quot;" };
const escaped = (text) => String(text).replace(/[&<>"]/g, (letter) => ESCAPES[letter]);
const short = (number) => Number(number.toFixed(2));

export class SvgPaint {
  constructor(width, height) {
    Object.assign(this, { width, height, parts: [], clips: 0 });
  }

  begin(width, height, paper) {
    this.rect(0, 0, width, height, paper);
  }

  end() {}

  add(name, values, words = "") {
    const texts = Object.entries(values).filter(([, value]) => value !== undefined && value !== null);
    const listed = texts.map(([key, value]) => `${key}="${escaped(typeof value === "number" ? short(value) : value)}"`).join(" ");
    this.parts.push(words ? `<${name} ${listed}>${escaped(words)}</${name}>` : `<${name} ${listed}/>`);
  }

  rect(x, y, width, height, fill, { stroke, alpha = 1, dash } = {}) {
    const inner = stroke ? 0.5 : 0;
    this.add("rect", {
      x: x + inner, y: y + inner, width: Math.max(width - 2 * inner, 0), height: Math.max(height - 2 * inner, 0), fill: fill ?? "none",
        stroke,
      opacity: alpha === 1 ? undefined : alpha, "stroke-dasharray": dash?.join(" "),
    });
  }

  rects(list, fill, stroke) {
    let places = "";
    for (let at = 0; at < list.length; at += 4) {
      const [x, y, width, height] = list.slice(at, at + 4).map(short);
      places += `M${x} ${y}h${width}v${height}h${-width}z`;
    }
    if (places) this.add("path", { d: places, fill, stroke });
  }

  areas(curves, bottom, alpha) {
    for (const { points, fill } of [...curves].reverse()) {
      this.path([points[0], bottom, ...points, points.at(-2), bottom], { fill, alpha });
    }
  }

  line(x, y, toX, toY, stroke, options = {}) {
    this.path([x, y, toX, toY], { stroke, ...options });
  }

  path(points, { fill, stroke, width = 1, dash, alpha = 1 }) {
    let places = "";
    for (let at = 0; at < points.length; at += 2) places += `${at ? "L" : "M"}${short(points[at])} ${short(points[at + 1])}`;
    this.add("path", {
      d: places, fill: fill ?? "none", stroke, "stroke-width": stroke && width, "stroke-dasharray": dash?.join(" "),
      opacity: alpha === 1 ? undefined : alpha,
    });
  }

  text(x, y, words, fill, { align = "left", size = 11, bold = false, alpha = 1 } = {}) {
    const anchor = { center: "middle", right: "end" }[align];
    this.add("text", {
      x, y, fill, "font-size": size, "text-anchor": anchor, "font-weight": bold ? 600 : undefined, opacity: alpha === 1 ? undefined : alpha,
    }, words);
  }

  within(x, y, width, height, paint) {
    const name = `clip${++this.clips}`;
    this.parts.push(`<clipPath id="${name}"><rect x="${x}" y="${y}" width="${width}" height="${height}"/></clipPath>`);
    this.parts.push(`<g clip-path="url(#${name})">`);
    paint();
    this.parts.push("</g>");
  }

  get whole() {
    const { width, height } = this;
    return `<svg xmlns="http://www.w3.org/2000/svg" width="${width}" height="${height}" viewBox="0 0 ${width} ${height}" ` +
      `font-family="${FONT}">\n${this.parts.join("\n")}\n</svg>\n`;
  }
}
