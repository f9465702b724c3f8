// What is counted of the canonical texts of a file, in one walk over each.
import { KINDS } from '../javascript/src/names.js';
import { Range } from './range.js';

/** How many points of a file are drawn. */
export const SAMPLE = 15000;
const FEED = 10, SPACE = 32, MINUS = 45, POINT = 46, ZERO = 48, NINE = 57, LETTER_M = 77, LETTER_Z = 90;
/** So many digits fit in a whole number of 32 bits. */
const DIGITS = 9;
const POWERS = Float64Array.from({ length: DIGITS + 1 }, (_, n) => 10 ** n);
/** Doubles of numbers are this near to them, as a part of the greatest. */
const NEAR = 1e-13;
const ONE = 0x85ebca6b, OTHER = 0xc2b2ae35;
/** Where the ends of each axis stand. */
const X = 0, Y = 2, Z = 4, M = 6;

const latin1 = new TextDecoder('latin1');

/** The kind of a canonical text, by letters in which no two kinds agree. */
function kindAt(bytes, at) {
  switch (bytes[at]) {
    case 80: return bytes[at + 2] === 73 ? 0 : 2; // P, I
    case 76: return 1; // L
    case 71: return 6; // G
    default:
      if (bytes[at + 5] === 76) return 4;
      return bytes[at + 7] === 73 ? 3 : 5;
  }
}

function isText(bytes, from, to, text) {
  if (to - from !== text.length) return false;
  for (let i = from; i < to; i++) if (bytes[i] !== text.charCodeAt(i - from)) return false;
  return true;
}

/** Kinds, points, bounds and a sample of the points of many canonical texts; and a hash of the last of them. */
export class Tally {
  points = 0;
  /** The bounds of x, y, z and m. */
  ranges = [new Range(), new Range(), new Range(), new Range()];
  /** Points of all the texts, as x, y, x, y ..: each had the same chance. */
  sample = [];
  /** The hash of the text that was added last: two numbers of 32 bits. */
  low = 0;
  high = 0;

  #counts = new Array(KINDS.length).fill(0);
  #seeds;
  /** A double between these two is surely neither the least nor the greatest of its axis. */
  #inner = new Float64Array(8).fill(Infinity);
  #long = 0; // the double of the last long number

  // The next point that comes into the sample, and what is left of the chance of those after it.
  #next = 1;
  #chance = 1;

  /** `seeds` are two numbers that nobody knows, so that no file can be made beforehand whose hashes agree. */
  constructor(seeds = Tally.seeds()) {
    this.#seeds = seeds;
  }

  static seeds() {
    return [0, 0].map(() => Math.floor(Math.random() * 2 ** 32) | 0);
  }

  get kinds() {
    return Object.fromEntries(KINDS.map((name, i) => [name, this.#counts[i]]).filter(([, n]) => n > 0));
  }

  /** Adds the canonical text that begins at `at`, and returns the place of its line feed. */
  add(bytes, at) {
    this.#counts[kindAt(bytes, at)]++;
    const inner = this.#inner;
    let low = this.#seeds[0], high = this.#seeds[1];
    let axis = X, third = Z;
    let x = 0;
    let i = at;
    for (let c = bytes[i]; c !== FEED; c = bytes[i]) {
      if (c > NINE || (c < ZERO && c !== MINUS)) { // no number begins
        if (c < MINUS && c !== SPACE) axis = X; // ( ) ,
        else if (c === LETTER_Z) third = Z;
        else if (c === LETTER_M && bytes[i - 1] === SPACE) third = M; // the third number is m where the header says M and not ZM
        low = Math.imul(low ^ c, ONE);
        i++;
        continue;
      }
      const from = i;
      const begin = c === MINUS ? i + 1 : i;
      // A one before the digits of the fraction tells 5 from 05.
      let whole = 0, fraction = 0;
      for (i = begin; (c = bytes[i]) >= ZERO; i++) whole = (Math.imul(whole, 10) + c - ZERO) | 0;
      const point = i;
      if (c === POINT) {
        fraction = 1;
        for (i++; (c = bytes[i]) >= ZERO; i++) fraction = (Math.imul(fraction, 10) + c - ZERO) | 0;
      }
      const places = i - point - 1;
      let value;
      if (point - begin > DIGITS || places > DIGITS) {
        low = this.#hashLong(bytes, from, i, low);
        value = this.#long;
      } else {
        value = places > 0 ? whole + (fraction - POWERS[places]) / POWERS[places] : whole;
        low = Math.imul(low ^ (begin > from ? ~whole : whole), ONE);
        low = Math.imul(low ^ (low >>> 15) ^ fraction, ONE);
      }
      if (begin > from) value = -value;
      low ^= low >>> 15;
      high = Math.imul(high ^ low, OTHER) ^ (high >>> 13);
      if (!(value > inner[axis] && value < inner[axis + 1])) this.#widen(axis, bytes, from, i);
      if (axis === X) x = value;
      else if (axis === Y && ++this.points === this.#next) this.#draw(x, value);
      axis = axis === Y ? third : axis === Z ? M : axis + 2;
    }
    this.low = low;
    this.high = high ^ (i - at);
    return i;
  }

  /** The hash of a number that has more digits; its double, without the sign, is in #long. */
  #hashLong(bytes, from, to, hash) {
    let [low, value, scale] = [hash, 0, 0];
    for (let i = from; i < to; i++) {
      const c = bytes[i];
      low = Math.imul(low ^ (low >>> 15) ^ c, ONE);
      if (c === POINT) scale = 1;
      if (c < ZERO) continue;
      value = value * 10 + c - ZERO;
      scale *= 10;
    }
    this.#long = scale > 0 ? value / scale : value;
    return low;
  }

  /** A number that may be the least or the greatest: that is told by its digits. */
  #widen(axis, bytes, from, to) {
    const range = this.ranges[axis / 2];
    if (isText(bytes, from, to, range.lowText) || isText(bytes, from, to, range.highText)) return;
    const text = latin1.decode(bytes.subarray(from, to));
    range.add(Number(text), text);
    const near = NEAR * Math.max(Math.abs(range.low), Math.abs(range.high));
    this.#inner[axis] = range.low + near;
    this.#inner[axis + 1] = range.high - near;
  }

  /** Takes a point into the sample. */
  #draw(x, y) {
    const n = this.points;
    if (n <= SAMPLE) {
      this.sample.push(x, y);
    } else {
      const k = 2 * Math.floor(Math.random() * SAMPLE);
      this.sample[k] = x;
      this.sample[k + 1] = y;
    }
    this.#next = n + 1;
    if (n < SAMPLE) return;
    // How many points are passed over, so that each has the same chance (Li, 1994).
    this.#chance *= Math.random() ** (1 / SAMPLE);
    this.#next += Math.floor(Math.log(Math.random()) / Math.log(1 - this.#chance));
  }
}
