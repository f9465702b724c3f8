// Draws geometries and the grid on a canvas.

/** A point so near to the one before it, in pixels, is left out. */
const SAME = 0.35;
/** Between two labels of an axis there is so much room. */
const APART = 14;
const FONT = '11px ui-monospace, Menlo, Consolas, "DejaVu Sans Mono", monospace';

/** 1, 2 or 5 times a power of ten, and at least `raw`. */
export function niceStep(raw) {
  const power = 10 ** Math.floor(Math.log10(raw));
  return power * [1, 2, 5, 10].find((m) => raw <= m * power * (1 + 1e-9));
}

/** A number with as many digits as steps of this size need. */
export function label(value, step) {
  if (Math.abs(value) < step / 1e6) return '0';
  if (Math.abs(value) < 1e9 && step >= 1e-9) return value.toFixed(Math.max(0, -Math.floor(Math.log10(step) + 1e-9)));
  const digits = Math.ceil(Math.log10(Math.abs(value) / step)) + 1;
  return String(Number(value.toPrecision(Math.min(15, Math.max(3, digits)))));
}

/** From the geometry's units to pixels. Far outside the picture it doesn't matter how far. */
export function scaleOf(view, { cx, cy }) {
  const clamp = (v) => Math.max(-1e5, Math.min(1e5, v));
  return { X: (x) => clamp(cx + (x - view.x) * view.s), Y: (y) => clamp(cy - (y - view.y) * view.s) };
}

/** The whole numbers of steps between two numbers, not too many. */
function steps(low, high, step) {
  const from = Math.ceil(low / step);
  return Array.from({ length: Math.min(200, Math.max(0, Math.floor(high / step) - from + 1)) }, (_, i) => from + i);
}

/** A line for each step, and labels that don't overlap: returns the labels, each with its place and width. */
export function drawGrid(to, { w, h }, view, { X, Y }, colors) {
  const step = niceStep(90 / view.s);
  const width = (words) => to.measureText(words).width;
  const labels = [];
  const line = (i, ...ends) => {
    to.strokeStyle = i === 0 ? colors.axis : colors.grid;
    to.beginPath();
    to.moveTo(ends[0], ends[1]);
    to.lineTo(ends[2], ends[3]);
    to.stroke();
  };
  to.font = FONT;
  to.lineWidth = 1;
  const [left, right] = [view.x - w / view.s, view.x + w / view.s];
  for (const i of steps(left, right, step)) {
    const x = X(i * step);
    if (x < 0 || x > w) continue;
    line(i, x, 0, x, h);
    const words = label(i * step, step);
    const before = labels.at(-1);
    const from = x - width(words) / 2;
    const fits = from > 40 && from + width(words) < w - 4 && (!before || (from > before.x + before.width + APART && words !== before.words));
    if (fits) labels.push({ words, x: from, y: h - 8, width: width(words) });
  }
  let last = null;
  for (const i of steps(view.y - h / view.s, view.y + h / view.s, step)) {
    const y = Y(i * step);
    if (y < 0 || y > h) continue;
    line(i, 0, y, w, y);
    const words = label(i * step, step);
    if (y < h - 30 && y > 14 && words !== last) labels.push({ words, x: 6, y: y - 4, width: width(words) });
    last = words;
  }
  return labels;
}

/** Writes the labels. The geometries lie on them. */
export function drawLabels(to, labels, colors) {
  to.fillStyle = colors.faint;
  for (const { words, x, y } of labels) to.fillText(words, x, y);
}

export class Pen {
  /** How many points were drawn. */
  drawn = 0;

  constructor(to, { X, Y }) {
    Object.assign(this, { to, X, Y });
  }

  /** Goes through points x, y, x, y .. */
  path(xy, close) {
    const { to } = this;
    let [px, py] = [NaN, NaN];
    for (let i = 0; i < xy.length; i += 2) {
      const [x, y] = [this.X(xy[i]), this.Y(xy[i + 1])];
      if (i === 0) to.moveTo(x, y);
      else if (i + 2 === xy.length || !(Math.abs(x - px) < SAME && Math.abs(y - py) < SAME)) to.lineTo(x, y);
      else continue;
      [px, py] = [x, y];
      this.drawn++;
    }
    if (close) to.closePath();
  }

  dots(xy, radius) {
    const { to } = this;
    for (let i = 0; i < xy.length; i += 2) {
      const [x, y] = [this.X(xy[i]), this.Y(xy[i + 1])];
      to.moveTo(x + radius, y);
      to.arc(x, y, radius, 0, 2 * Math.PI);
    }
    this.drawn += xy.length / 2;
  }

  #filled(draw, alpha, rule = 'nonzero') {
    const { to } = this;
    const before = to.globalAlpha;
    to.beginPath();
    draw();
    to.globalAlpha = before * alpha;
    to.fill(rule);
    to.globalAlpha = before;
  }

  /** A geometry that is no collection, in one colour. */
  leaf({ dots, area, rings, ends }, { color, card, refused, dotted, ended }) {
    const { to } = this;
    to.fillStyle = to.strokeStyle = color;
    if (dots) {
      this.#filled(() => rings.forEach((ring) => this.dots(ring, 4)), 1);
      return;
    }
    let from = 0;
    for (const end of area ? ends : []) {
      this.#filled(() => rings.slice(from, end).forEach((ring) => this.path(ring, true)), refused ? 0.07 : 0.16, 'evenodd');
      from = end;
    }
    to.lineWidth = 1.8;
    to.setLineDash(refused ? [5, 4] : []);
    to.beginPath();
    for (const ring of rings) this.path(ring, false);
    to.stroke();
    to.setLineDash([]);
    if (dotted) this.#filled(() => rings.forEach((ring) => this.dots(ring, 2.3)), 1);
    if (ended) for (const ring of rings) this.#ends(ring, card);
  }

  /** A ring around the first vertex of a line, and a square around the last. */
  #ends(ring, card) {
    const { to } = this;
    const [x0, y0, x1, y1] = [this.X(ring[0]), this.Y(ring[1]), this.X(ring.at(-2)), this.Y(ring.at(-1))];
    to.lineWidth = 1.4;
    to.beginPath();
    to.rect(x1 - 5.5, y1 - 5.5, 11, 11);
    to.stroke();
    const color = to.fillStyle;
    to.fillStyle = card;
    to.beginPath();
    to.arc(x0, y0, 3.6, 0, 2 * Math.PI);
    to.fill();
    to.stroke();
    to.fillStyle = color;
  }

  /** A cross at the last point before a refusal. */
  cross({ leaves }, color) {
    const ring = leaves.at(-1)?.rings.at(-1);
    if (!ring) return;
    const { to } = this;
    const [x, y] = [this.X(ring.at(-2)), this.Y(ring.at(-1))];
    to.strokeStyle = color;
    to.lineWidth = 2.5;
    to.beginPath();
    to.moveTo(x - 6, y - 6);
    to.lineTo(x + 6, y + 6);
    to.moveTo(x + 6, y - 6);
    to.lineTo(x - 6, y + 6);
    to.stroke();
  }
}
