// What a canonical text holds: counts, bounds, and coordinates for the picture. Ordinary JavaScript, over canonical text
// alone, which has one form: kind words in capitals, single spaces, and numbers as JSON has them.
import { KINDS, KIND_WORDS } from '../javascript/src/names.js';
import { Range } from './range.js';

// How deep the parentheses around a list of points are.
const DEPTH = { POINT: 1, LINESTRING: 1, POLYGON: 2, MULTIPOINT: 2, MULTILINESTRING: 2, MULTIPOLYGON: 3 };
const OPEN = 40, CLOSE = 41, COMMA = 44, SPACE = 32, LETTERS = 65;

/**
 * The parts of a canonical text. `leaves` are its geometries that are no collections, each with its lists of points:
 * `rings` as x, y, x, y .., `places` with the place of each point in the text, and `ends` with the number of rings at which
 * each polygon ends.
 */
export class Summary {
  kind = '';
  dimension = 'XY';
  points = 0;
  rings = 0;
  polygons = 0;
  holes = 0;
  members = 0;
  levels = 0;
  /** Parts without a point. */
  empty = 0;
  /** Rings that don't end where they begin. */
  open = 0;
  /** Lines of less than two points, and closed rings of less than four. */
  short = 0;
  x = new Range();
  y = new Range();
  z = new Range();
  m = new Range();
  leaves = [];

  constructor(text) {
    this.#text = text;
    let at = 0;
    let level = 0;
    while (at < text.length) {
      const header = this.#header(at);
      if (at === 0) {
        this.kind = KINDS[KIND_WORDS.indexOf(header.word)];
        this.dimension = header.dimension;
      }
      if (level > 0) this.members++;
      at = header.end;
      if (header.empty) {
        this.empty++;
      } else if (header.word === 'GEOMETRYCOLLECTION') {
        level++;
        this.levels = Math.max(this.levels, level);
        at++;
        continue;
      } else {
        at = this.#leaf(header);
      }
      while (text.charCodeAt(at) === CLOSE) {
        level--;
        at++;
      }
      at++; // the comma before the next member
    }
  }

  #text;

  #letters(from) {
    let end = from;
    while (this.#text.charCodeAt(end) >= LETTERS) end++;
    return end;
  }

  /** Kind and dimension at the front of a geometry; `end` is behind them, and behind EMPTY. */
  #header(at) {
    let end = this.#letters(at);
    const header = { word: this.#text.slice(at, end), dimension: 'XY', empty: false };
    while (this.#text.charCodeAt(end) === SPACE) {
      const stop = this.#letters(end + 1);
      const word = this.#text.slice(end + 1, stop);
      end = stop;
      if (word === 'EMPTY') {
        header.empty = true;
        break;
      }
      header.dimension = 'XY' + word;
    }
    return { ...header, end };
  }

  /** Takes a geometry that is no collection and isn't empty, and returns where it ends. */
  #leaf({ word, dimension, end }) {
    const text = this.#text;
    const dots = word === 'POINT' || word === 'MULTIPOINT';
    const area = word === 'POLYGON' || word === 'MULTIPOLYGON';
    const leaf = { word, dots, area, rings: [], places: [], ends: [] };
    const depth = DEPTH[word];
    let level = 0;
    let at = end;
    do {
      const c = text.charCodeAt(at);
      if (c === OPEN) {
        level++;
        at++;
        if (level === depth) {
          at = this.#points(leaf, dimension, at);
          level--;
        }
      } else if (c === CLOSE) {
        level--;
        at++;
        if (area && level === depth - 2) this.#polygon(leaf);
      } else if (c === COMMA) {
        at++;
      } else {
        this.empty++;
        at += 5; // EMPTY
      }
    } while (level > 0);
    this.leaves.push(leaf);
    return at;
  }

  #polygon(leaf) {
    const before = leaf.ends.length > 0 ? leaf.ends[leaf.ends.length - 1] : 0;
    leaf.ends.push(leaf.rings.length);
    this.polygons++;
    this.holes += Math.max(0, leaf.rings.length - before - 1);
  }

  /** Takes the points between two parentheses, and returns where the closing one ends. */
  #points(leaf, dimension, from) {
    const text = this.#text;
    const axes = [this.x, this.y, ...[...dimension.slice(2)].map((letter) => (letter === 'Z' ? this.z : this.m))];
    const points = [];
    const places = [];
    let at = from;
    do {
      places.push(at);
      for (let k = 0; k < axes.length; k++) {
        let stop = at;
        while (text.charCodeAt(stop) > COMMA) stop++;
        const digits = text.slice(at, stop);
        const value = Number(digits);
        if (k < 2) points.push(value);
        if (!axes[k].within(value)) axes[k].add(value, digits);
        at = stop + 1;
      }
    } while (text.charCodeAt(at - 1) === COMMA);
    this.points += places.length;
    leaf.rings.push(points);
    leaf.places.push(places);
    if (!leaf.dots) {
      this.rings++;
      this.#judge(leaf.area, places, text.slice(places[places.length - 1], at - 1));
    }
    return at;
  }

  /** Whether a line or a ring has enough points, and whether a ring ends where it begins. */
  #judge(area, places, last) {
    const first = this.#text.slice(places[0], places.length > 1 ? places[1] - 1 : places[0] + last.length);
    if (area && first !== last) this.open++;
    else if (places.length < (area ? 4 : 2)) this.short++;
  }
}
