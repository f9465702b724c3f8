// What lies at a place of the picture: a vertex, an edge, or the inside of a polygon.
import { units } from './features.js';

/** More points than this aren't looked at. */
const LOOKED = 200000;

/** Doubles that differ by less than this part of them don't tell six digits of the difference. */
const COARSE = 1e-10;

/** The difference of two numbers; `a` and `b` give their digits. */
function difference(x, y, a, b) {
  const far = y - x;
  if (Math.abs(far) >= COARSE * Math.abs(x)) return far;
  return a() === b() ? 0 : Number(units(b()) - units(a())) / 1e36;
}

/** How long a ring or line is, in the units of its numbers; `digits` gives those of a vertex, by its number. */
export function lengthOf(xy, digits) {
  const of = (i, axis) => () => digits(i).split(' ')[axis];
  let length = 0;
  for (let i = 1; i < xy.length / 2; i++) {
    const [dx, dy] = [0, 1].map((axis) => difference(xy[2 * i - 2 + axis], xy[2 * i + axis], of(i - 1, axis), of(i, axis)));
    length += Math.hypot(dx, dy);
  }
  return length;
}

function toSegment(x, y, [x0, y0, x1, y1]) {
  const [dx, dy] = [x1 - x0, y1 - y0];
  const square = dx * dx + dy * dy;
  const t = square > 0 ? Math.max(0, Math.min(1, ((x - x0) * dx + (y - y0) * dy) / square)) : 0;
  return Math.hypot(x - x0 - t * dx, y - y0 - t * dy);
}

/** How often a ring's edges lie to the right of a place. */
function crossings(xy, x, y) {
  let n = 0;
  for (let i = 0, k = xy.length - 2; i < xy.length; k = i, i += 2) {
    if (xy[i + 1] > y !== xy[k + 1] > y && x < xy[i] + ((y - xy[i + 1]) * (xy[k] - xy[i])) / (xy[k + 1] - xy[i + 1])) n++;
  }
  return n;
}

/** Whether a place lies inside of one of the polygons. */
function inside({ area, rings, ends }, x, y) {
  let from = 0;
  for (const end of area ? ends : []) {
    if (rings.slice(from, end).reduce((n, ring) => n + crossings(ring, x, y), 0) % 2 === 1) return true;
    from = end;
  }
  return false;
}

const isNear = ({ x, y }, px, py, reach) =>
  !x.empty && px >= x.low - reach && px <= x.high + reach && py >= y.low - reach && py <= y.high + reach;

/** Calls `see` with each ring or line of a geometry's summary, and where it is. */
function eachRing(summary, see) {
  summary.leaves.forEach((leaf, l) => leaf.rings.forEach((xy, r) => see(leaf, xy, { leaf: l, ring: r })));
}

/**
 * The vertex that is nearest to a place, if one is within reach; else the nearest edge, else the smallest polygon around
 * the place; null where there is nothing. `shapes` are { row, summary }.
 */
export function found(shapes, px, py, reach) {
  let best = { vertex: null, edge: null, area: null };
  let [vertexAt, edgeAt, size, seen] = [reach, reach, Infinity, 0];
  for (const shape of shapes) {
    const { summary } = shape;
    if (!isNear(summary, px, py, reach)) continue;
    if ((seen += summary.points) > LOOKED) break;
    eachRing(summary, (leaf, xy, where) => {
      for (let i = 0; i < xy.length; i += 2) {
        const far = Math.hypot(xy[i] - px, xy[i + 1] - py);
        if (far < vertexAt) {
          vertexAt = far;
          best.vertex = { shape, ...where, vertex: i / 2 };
        }
        if (leaf.dots || i + 2 === xy.length) continue;
        const beside = toSegment(px, py, [xy[i], xy[i + 1], xy[i + 2], xy[i + 3]]);
        if (beside < edgeAt) {
          edgeAt = beside;
          best.edge = { shape, ...where, vertex: null };
        }
      }
    });
    const box = (summary.x.high - summary.x.low) * (summary.y.high - summary.y.low);
    if (box < size && summary.leaves.some((leaf) => inside(leaf, px, py))) {
      size = box;
      best.area = { shape, leaf: null, ring: null, vertex: null };
    }
  }
  return best.vertex ?? best.edge ?? best.area;
}

/** What the page says of it: the digits of a vertex, and of its ring the number, the vertices and the length. */
export function describe({ shape, leaf, ring, vertex }) {
  const said = { id: shape.row.id };
  if (leaf === null) return { ...said, points: shape.summary.points };
  const { dots, area, rings, places, ends } = shape.summary.leaves[leaf];
  const digits = (i) => shape.canonical.slice(places[ring][i], places[ring][i] + 200).split(/[,)]/, 1)[0];
  if (vertex !== null) said.digits = digits(vertex);
  if (dots) return said;
  const outer = [0, ...ends].includes(ring);
  return { ...said, what: area ? (outer ? 'ring' : 'hole') : 'line', ring: ring + 1, rings: rings.length, vertex: vertex === null ? null : vertex + 1,
    vertices: rings[ring].length / 2, length: lengthOf(rings[ring], digits) };
}

/** The vertex that follows another, or comes before it (`by` is 1 or -1), in one geometry; from the first or last on. */
export function stepped(shape, at, by) {
  const all = [];
  eachRing(shape.summary, (leaf, xy, where) => {
    for (let i = 0; i < xy.length / 2; i++) all.push({ shape, ...where, vertex: i });
  });
  if (all.length === 0) return null;
  const now = at && at.shape.row === shape.row ? all.findIndex((it) => it.leaf === at.leaf && it.ring === at.ring && it.vertex === at.vertex) : -1;
  if (now < 0) return by > 0 ? all[0] : all[all.length - 1];
  return all[(now + by + all.length) % all.length];
}
