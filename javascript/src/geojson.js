// GeoJSON (RFC 7946): of canonical text as text, in which each number stands as there, so none is rounded; and of events as an
// object of doubles.
import { KINDS, KIND_WORDS } from './names.js';
import { GeoJSONError } from './errors.js';
import { decimal, nearestAt } from './decimals.js';
import { END, WIDTHS } from './events.js';

// How deep the parentheses of a kind are; and the kinds whose innermost parentheses hold one coordinate, and no list.
const DEPTHS = { POINT: 1, LINESTRING: 1, POLYGON: 2, MULTIPOINT: 2, MULTILINESTRING: 2, MULTIPOLYGON: 3 };
const SINGLE = ['POINT', 'MULTIPOINT'];

/** Where the word ends that begins there. */
function wordEnd(text, at) {
  while (at < text.length && text.charCodeAt(at) > 64) at++; // letters stand behind `@`, and marks and digits before it
  return at;
}

/** The header there: its kind word, whether it has m that is to be left out, whether it is empty, and where its body begins. */
function header(text, at, m) {
  let end = wordEnd(text, at);
  const word = text.slice(at, end);
  let dimension = '';
  if (text[end] === ' ') {
    const stop = wordEnd(text, end + 1);
    const next = text.slice(end + 1, stop);
    if (next !== 'EMPTY') {
      dimension = next;
      end = stop;
    }
  }
  const has = dimension.endsWith('M');
  if (has && m === 'refuse') throw noM();
  return { word, drop: has && m === 'drop', empty: text[end] === ' ', end };
}

const noM = () => new GeoJSONError("GeoJSON has no m: m: 'drop' leaves it out, and 'keep' makes it the last number");
const noPoint = () => new GeoJSONError('GeoJSON has no form for an empty point of a MultiPoint');

/** Coordinates without their last numbers. */
const withoutLast = (run) => run.split(',').map((coordinate) => coordinate.slice(0, coordinate.lastIndexOf(' '))).join(',');

/** The coordinates of a body in parentheses go to `out`; where they end. */
function coordinates(text, from, word, drop, out) {
  const depth = DEPTHS[word];
  const single = SINGLE.includes(word);
  let at = from;
  let level = 0;
  do {
    const mark = text[at];
    if (mark === '(' && level + 1 === depth) {
      const end = text.indexOf(')', at);
      const run = text.slice(at + 1, end);
      const list = (drop ? withoutLast(run) : run).replaceAll(',', '],[').replaceAll(' ', ',');
      out.push(single ? '[' : '[[', list, single ? ']' : ']]');
      at = end + 1;
    } else if (mark === 'E') {
      if (single) throw noPoint();
      out.push('[]');
      at += 'EMPTY'.length;
    } else {
      level += mark === '(' ? 1 : mark === ')' ? -1 : 0;
      out.push(mark === '(' ? '[' : mark === ')' ? ']' : ',');
      at++;
    }
  } while (level > 0);
  return at;
}

/** A canonical text as GeoJSON. `m` says what becomes of m: 'refuse', 'drop', or 'keep' as the last number of a position. */
export function geoJSONOf(text, m) {
  const out = [];
  let at = 0;
  for (;;) {
    const { word, drop, empty, end } = header(text, at, m);
    at = empty ? end + ' EMPTY'.length : end;
    if (word === 'GEOMETRYCOLLECTION') {
      out.push('{"type":"GeometryCollection","geometries":[');
      if (!empty) {
        at++;
        continue;
      }
      out.push(']}');
    } else {
      out.push('{"type":"', KINDS[KIND_WORDS.indexOf(word)], '","coordinates":');
      if (empty) out.push('[]');
      else at = coordinates(text, at, word, drop, out);
      out.push('}');
    }
    for (; text[at] === ')'; at++) out.push(']}');
    if (at >= text.length) return out.join('');
    out.push(',');
    at++;
  }
}

const LINESTRING = 1, POLYGON = 2, MULTIPOINT = 3, MULTILINESTRING = 4, MULTIPOLYGON = 5, COLLECTION = 6;

/** Reads events and their numbers, which stand in memory as words of 32 bits, as the objects that they are in GeoJSON. */
class Objects {
  constructor(words, [events, numbers], places, m) {
    this.words = words;
    this.event = events / 4;
    this.number = numbers / 4;
    this.nearest = nearestAt(places);
    this.m = m;
    this.wide = false; // whether a number has more than 64 bits
  }

  /** Which kind of event comes next: BEGIN, END, or another, of a number of coordinates. */
  get sort() {
    return this.words[this.event + 1];
  }

  /** The lower half of the next event, which is taken. */
  taken() {
    this.event += 2;
    return this.words[this.event - 2];
  }

  /** A geometry that begins, but for its coordinates or members; its kind. */
  begun() {
    const header = this.taken();
    const dimension = header & 3;
    if (dimension >= 2 && this.m === 'refuse') throw noM();
    this.width = WIDTHS[dimension];
    this.used = this.width - (dimension >= 2 && this.m === 'drop' ? 1 : 0);
    return header >> 2;
  }

  /** The number of 128 bits that is so many words further. */
  at(words) {
    const at = this.number + words;
    const [low, high] = [this.words[at], this.words[at + 1] | 0];
    const sign = high >> 31;
    if ((this.words[at + 2] | 0) !== sign || (this.words[at + 3] | 0) !== sign) return this.far(at);
    return this.nearest.of(high, low);
  }

  far(at) {
    this.wide = true;
    let units = BigInt(this.words[at + 3] | 0);
    for (let i = 2; i >= 0; i--) units = (units << 32n) + BigInt(this.words[at + i]);
    return Number(decimal(units, this.nearest.places));
  }

  /** A position. Literals take the room that they need, and no more. */
  position() {
    const [x, y] = [this.at(0), this.at(4)];
    const made = this.used === 2 ? [x, y] : this.used === 3 ? [x, y, this.at(8)] : [x, y, this.at(8), this.at(12)];
    this.number += 4 * this.width;
    return made;
  }

  positions() {
    const list = [];
    for (let count = this.taken(); count > 0; count--) list.push(this.position());
    return list;
  }

  /** Items up to the end of what began. */
  items(item) {
    const list = [];
    while (this.sort !== END) list.push(item.call(this));
    this.event += 2;
    return list;
  }

  /** The one position of a point of a MultiPoint. */
  member() {
    if (this.taken() === 0) throw noPoint();
    return this.position();
  }

  /** The rings of a polygon that began: none where the first is empty, as its canonical text has it. */
  rings() {
    const list = this.items(this.positions);
    return list.length > 0 && list[0].length === 0 ? [] : list;
  }

  polygon() {
    this.begun();
    return this.rings();
  }

  coordinates(kind) {
    if (kind === POLYGON) return this.rings();
    if (kind === MULTIPOINT) return this.items(this.member);
    if (kind === MULTILINESTRING) return this.items(this.positions);
    if (kind === MULTIPOLYGON) return this.items(this.polygon);
    const list = this.positions();
    this.event += 2;
    return kind === LINESTRING ? list : list[0] ?? [];
  }

  /** The geometry. It takes no stack for nesting. */
  made() {
    const kind = this.begun();
    if (kind !== COLLECTION) return { type: KINDS[kind], coordinates: this.coordinates(kind) };
    const all = { type: 'GeometryCollection', geometries: [] };
    const open = [all];
    for (;;) {
      while (this.sort === END) {
        this.event += 2;
        open.pop();
        if (open.length === 0) return all;
      }
      const { geometries } = open[open.length - 1];
      const member = this.begun();
      if (member === COLLECTION) open.push({ type: 'GeometryCollection', geometries: [] });
      geometries.push(member === COLLECTION ? open[open.length - 1] : { type: KINDS[member], coordinates: this.coordinates(member) });
    }
  }
}

/**
 * The events in memory as an object of GeoJSON: what JSON.parse makes of geoJSONOf. Where `sure` is false, and a number
 * has more than 64 bits, or there is no form for it, null: with more places the text may be refused.
 */
export function geoJSONObjectOf(words, at, places, m, sure) {
  const objects = new Objects(words, at, places, m);
  let made;
  try {
    made = objects.made();
  } catch (error) {
    if (sure || !(error instanceof GeoJSONError)) throw error;
    return null;
  }
  return objects.wide && !sure ? null : made;
}
