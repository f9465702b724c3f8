// The picture, in a worker: to scale, and y up. It moves, zooms, and says what is under the pointer.
import { pause } from './desk.js';
import { describe, found, stepped } from './hit.js';
import { Pen, drawGrid, drawLabels, label, niceStep, scaleOf } from './pen.js';

const PAD = { left: 12, right: 12, top: 12, bottom: 26 };
/** More points than this aren't drawn, and more than that have no dots. */
const DRAWN = 400000, DOTTED = 300;
/** Of so many refused texts the part before the refusal is drawn. */
const FRONTS = 200;
/** How near a point has to be to the pointer, in pixels. */
const REACH = 9;
/** For how many milliseconds it draws, before the worker looks what else is asked. */
const SLICE = 8;

/** The longest time to the next frame, in milliseconds: a browser may show none to a worker. */
const FRAME = 100;

const frame = () => new Promise((go) => {
  setTimeout(go, self.requestAnimationFrame ? FRAME : 16);
  self.requestAnimationFrame?.(go);
});

export class Painter {
  #desk;
  #post;
  #canvas;
  // What is drawn on. A context is asked for once: Firefox refuses a second time.
  #front = null;
  #back = null;
  #to = null;
  #size = { w: 1, h: 1, ratio: 1 };
  #colors = null;
  /** The middle of the picture in the geometry's units, and pixels for a unit; null where there is nothing to draw. */
  #view = null;
  #chosen = -1;
  /** Whether the chosen row stands out, since the user chose it in the picture. */
  #single = false;
  /** Points of a file; null where none is open. */
  #points = null;
  #at = null; // the vertex that is marked
  #wanted = false;
  #painting = false;
  #painted = 0;
  #whole = false; // whether what is drawn is whole
  #words = {};

  constructor(desk, post, canvas) {
    this.#desk = desk;
    this.#post = post;
    this.#canvas = canvas;
  }

  /** What the page asks for, by names. */
  take(asked) {
    const acts = {
      size: (size) => this.#resize(size),
      colors: (colors) => { this.#colors = colors; },
      points: (points) => { this.#points = points; },
      chosen: ({ id, single }) => this.#choose(id, single),
      fit: () => this.fit(),
      zoom: ([factor, px, py]) => this.#zoom(factor, px, py),
      move: ([dx, dy]) => this.#move(dx, dy),
      hover: (place) => this.#hover(place),
      pick: (place) => this.#pick(place),
      step: (by) => this.#step(by),
    };
    for (const [name, value] of Object.entries(asked)) {
      acts[name](value);
      if (!['hover', 'pick', 'step'].includes(name)) this.draw();
    }
  }

  #choose(id, single) {
    if (id !== this.#chosen) this.#at = null;
    [this.#chosen, this.#single] = [id, single];
  }

  #resize({ w, h, ratio }) {
    this.#size = { w: Math.max(1, w), h: Math.max(1, h), ratio };
    this.fit();
  }

  get #middle() {
    const { w, h } = this.#size;
    return { cx: (w + PAD.left - PAD.right) / 2, cy: (h + PAD.top - PAD.bottom) / 2 };
  }

  /** What is drawn: each accepted row, and the front of a refused one, with its place among the rows. */
  #shapes() {
    let fronts = 0;
    return this.#desk.rows.flatMap((row, i) => {
      if (!row.accepted && row.id !== this.#chosen && fronts++ >= FRONTS) return [];
      const shape = this.#desk.shapeOf(row);
      return shape ? [{ row, i, canonical: shape.canonical, summary: shape.summary }] : [];
    });
  }

  #bounds(shapes) {
    const b = { x0: Infinity, y0: Infinity, x1: -Infinity, y1: -Infinity };
    const take = (x0, y0, x1, y1) => {
      [b.x0, b.y0] = [Math.min(b.x0, x0), Math.min(b.y0, y0)];
      [b.x1, b.y1] = [Math.max(b.x1, x1), Math.max(b.y1, y1)];
    };
    const xy = this.#points?.xy ?? [];
    for (let i = 0; i < xy.length; i += 2) take(xy[i], xy[i + 1], xy[i], xy[i + 1]);
    for (const { summary: { x, y } } of shapes) if (!x.empty) take(x.low, y.low, x.high, y.high);
    return b.x0 > b.x1 ? null : b;
  }

  /** Shows all of it, as soon as it is drawn. */
  fit() {
    const b = this.#bounds(this.#shapes());
    this.#view = null;
    if (b) {
      let [dx, dy] = [b.x1 - b.x0, b.y1 - b.y0];
      // A single point, or points that doubles hardly tell apart, get some room around them.
      const least = Math.max(1, ...[b.x0, b.x1, b.y0, b.y1].map(Math.abs)) * 1e-12;
      if (dx <= least && dy <= least) dx = dy = Math.max(1, least * 1e6);
      const { w, h } = this.#size;
      const part = 0.86;
      const s = Math.min((w - PAD.left - PAD.right) * part / (dx || dy * 1e-9), (h - PAD.top - PAD.bottom) * part / (dy || dx * 1e-9));
      this.#view = { x: (b.x0 + b.x1) / 2, y: (b.y0 + b.y1) / 2, s };
    }
  }

  #zoom(factor, px = this.#size.w / 2, py = this.#size.h / 2) {
    const view = this.#view;
    if (!view) return;
    const { cx, cy } = this.#middle;
    const [x, y] = [view.x + (px - cx) / view.s, view.y - (py - cy) / view.s];
    view.s = Math.min(1e15, Math.max(1e-30, view.s * factor));
    view.x = x - (px - cx) / view.s;
    view.y = y + (py - cy) / view.s;
  }

  #move(dx, dy) {
    if (!this.#view) return;
    this.#view.x += dx / this.#view.s;
    this.#view.y += dy / this.#view.s;
  }

  /** The place of the geometry at a place of the picture, in pixels. */
  #placeAt([px, py]) {
    const { cx, cy } = this.#middle;
    return [this.#view.x + (px - cx) / this.#view.s, this.#view.y - (py - cy) / this.#view.s];
  }

  /** Says what is under the pointer; null: the pointer has left. */
  #hover(place) {
    this.#at = null;
    const said = {};
    if (place && this.#view) {
      const [x, y] = this.#placeAt(place);
      const hit = found(this.#shapes(), x, y, REACH / this.#view.s);
      this.#at = hit?.vertex === null ? null : hit;
      const step = niceStep(2 / this.#view.s);
      Object.assign(said, hit ? describe(hit) : {}, { place: `${label(x, step)} ${label(y, step)}` });
    }
    this.#post({ readout: said });
    this.#show();
  }

  /** Goes to another vertex of the chosen geometry. */
  #step(by) {
    const shape = this.#shapes().find(({ row }) => row.id === this.#chosen);
    this.#at = shape ? stepped(shape, this.#at, by) : null;
    if (this.#at) this.#post({ readout: { ...describe(this.#at), spoken: true } });
    if (this.#at && !this.#isSeen()) {
      [this.#view.x, this.#view.y] = this.#marked;
      this.draw();
    } else {
      this.#show();
    }
  }

  /** The place of the vertex that is marked. */
  get #marked() {
    const { shape, leaf, ring, vertex } = this.#at;
    return shape.summary.leaves[leaf].rings[ring].slice(2 * vertex, 2 * vertex + 2);
  }

  /** Whether that place is in the picture. */
  #isSeen() {
    const [x, y] = this.#marked;
    const { X, Y } = scaleOf(this.#view, this.#middle);
    const { w, h } = this.#size;
    return X(x) >= 0 && X(x) <= w && Y(y) >= 0 && Y(y) <= h;
  }

  /** Says which geometry is there. */
  #pick(place) {
    if (!this.#view) return;
    const hit = found(this.#shapes(), ...this.#placeAt(place), REACH / this.#view.s);
    if (hit) this.#post({ picked: hit.shape.row.id });
  }

  /** Draws before the next frame. */
  draw() {
    this.#wanted = true;
    if (this.#painting || !this.#colors) return;
    this.#painting = true;
    this.#paint().catch((error) => this.#post({ failed: String(error) })).finally(() => {
      this.#painting = false;
    });
  }

  async #paint() {
    while (this.#wanted) {
      await frame();
      this.#wanted = false;
      const { w, h, ratio } = this.#size;
      const [wide, high] = [Math.round(w * ratio), Math.round(h * ratio)];
      if (this.#back?.width !== wide || this.#back?.height !== high) {
        this.#back = new OffscreenCanvas(wide, high);
        this.#to = this.#back.getContext('2d');
      }
      this.#whole = false;
      let until = performance.now() + SLICE;
      for (const _ of this.#steps(this.#to)) {
        if (performance.now() < until) continue;
        await pause();
        until = performance.now() + SLICE;
      }
      this.#whole = true;
      this.#show();
      this.#post({ drawn: { ...this.#words, painted: ++this.#painted } });
    }
  }

  /** Puts what is drawn on the page at once, and a circle around the vertex that is looked at. */
  #show() {
    if (!this.#back || (this.#painting && !this.#whole)) return; // it is half drawn, and shown soon
    const { width, height } = this.#back;
    this.#front ??= this.#canvas.getContext('2d');
    const front = this.#front;
    if (this.#canvas.width !== width || this.#canvas.height !== height) Object.assign(this.#canvas, { width, height });
    else front.clearRect(0, 0, width, height);
    front.drawImage(this.#back, 0, 0);
    if (!this.#view || !this.#at || this.#at.shape.row.gone) return;
    const { X, Y } = scaleOf(this.#view, this.#middle);
    const [x, y] = this.#marked;
    front.setTransform(this.#size.ratio, 0, 0, this.#size.ratio, 0, 0);
    front.strokeStyle = this.#colors.ink;
    front.lineWidth = 1.5;
    front.beginPath();
    front.arc(X(x), Y(y), 7, 0, 2 * Math.PI);
    front.stroke();
    front.setTransform(1, 0, 0, 1, 0, 0);
  }

  /** Draws all of it, step by step. */
  * #steps(to) {
    const { w, h, ratio } = this.#size;
    const colors = this.#colors;
    to.setTransform(ratio, 0, 0, ratio, 0, 0);
    to.clearRect(0, 0, w, h);
    to.globalAlpha = 1;
    to.lineJoin = to.lineCap = 'round';
    const shapes = this.#shapes();
    this.#words = this.#told(shapes);
    if (this.#view) {
      const scale = scaleOf(this.#view, this.#middle);
      const labels = drawGrid(to, { w, h }, this.#view, scale, colors);
      drawLabels(to, labels, colors);
      const pen = new Pen(to, scale);
      if (this.#points) this.#sample(pen);
      const all = shapes.reduce((n, { summary }) => n + summary.points, 0);
      // The chosen one lies on the others.
      const on = ({ row }) => row.id === this.#chosen;
      for (const shape of [...shapes.filter((it) => !on(it)), ...shapes.filter(on)]) {
        if (pen.drawn > DRAWN && !on(shape)) continue;
        this.#shape(pen, shape, on(shape), all);
        yield;
      }
      this.#words.labels = labels.map(({ x, y, width: wide }) => [x, y, wide].map(Math.round));
    }
  }

  #shape(pen, { row, i, summary }, on, all) {
    const { to } = pen;
    const refused = !row.accepted;
    const color = refused ? this.#colors.bad : this.#colors.shapes[i % 8];
    to.globalAlpha = this.#single && !on && this.#desk.rows.length > 1 ? 0.22 : 1;
    const dotted = all <= DOTTED || (on && summary.points <= DOTTED);
    const ended = !refused && (dotted || (on && summary.rings <= DOTTED));
    for (const leaf of summary.leaves) pen.leaf(leaf, { color, card: this.#colors.card, refused, dotted, ended });
    this.#words.ended ||= ended && summary.rings > 0;
    if (refused) pen.cross(summary, color);
    to.globalAlpha = 1;
  }

  #sample(pen) {
    pen.to.fillStyle = this.#colors.shapes[0];
    pen.to.globalAlpha = 0.55;
    const { xy } = this.#points;
    for (let i = 0; i < xy.length; i += 2) pen.to.fillRect(pen.X(xy[i]) - 1.25, pen.Y(xy[i + 1]) - 1.25, 2.5, 2.5);
    pen.to.globalAlpha = 1;
  }

  /** What the page says beside the picture. */
  #told(shapes) {
    const first = shapes.slice(0, 4).map(({ row, summary }) => ({ refused: !row.accepted, kind: summary.kind, points: summary.points }));
    return { seen: Boolean(this.#view), shapes: shapes.length, first, ended: false, dashed: shapes.some(({ row }) => !row.accepted),
      sample: this.#points ? this.#points.xy.length / 2 : null };
  }
}
