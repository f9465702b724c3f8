// Numbers as units of ten to the minus `places`: as decimals, and as doubles.

/** So many units as canonical text has them. */
export function decimal(units, places) {
  if (typeof units !== 'bigint') throw new TypeError('units are a BigInt');
  if (!Number.isInteger(places)) throw new TypeError('places is a whole number');
  if (places < 0) throw new RangeError('places is 0 or more');
  if (places === 0 || units === 0n) return units.toString();
  const negative = units < 0n;
  const digits = (negative ? -units : units).toString().padStart(places + 1, '0');
  const point = digits.length - places;
  let end = digits.length;
  while (end > point && digits[end - 1] === '0') end--;
  return (negative ? '-' : '') + digits.slice(0, point) + (end > point ? '.' + digits.slice(point, end) : '');
}

// Below it doubles hold every whole number.
const EXACT = 2 ** 53;
const HALF = 2 ** 32;
// A product with it leaves the upper half of a double's digits.
const SPLITS = 2 ** 27 + 1;

const upper = (x) => x * SPLITS - (x * SPLITS - x);

/** Units of ten to the minus `places` as the nearest doubles. */
class Nearest {
  constructor(places) {
    this.places = places;
    // Where doubles hold the units and the power, their quotient is rounded once. 10 ** 22 is the largest power that they hold.
    this.power = 10 ** places;
    this.exact = places <= 22 ? EXACT : 0;
    this.fives = 5 ** places;
    this.upperFives = upper(this.fives);
    this.twos = 2 ** places;
  }

  /** Of so many units: 2 ** 32 times a number from -2 ** 31 to 2 ** 31 - 1, and `low`, below 2 ** 32. */
  of(high, low) {
    const units = high * HALF + low;
    if (-this.exact < units && units < this.exact) return units / this.power;
    if (this.places <= 18) return this.quotient(units, low - (units - high * HALF));
    return Number(decimal((BigInt(high) << 32n) + BigInt(low), this.places));
  }

  /**
   * Of `units` + `rest` units, `rest` being what `units` was rounded by. Their quotient by five to the `places` may be off by
   * a unit in the last place: it is mended by what remains, which is exact. All of it has at most 53 digits of base two,
   * since that power has at most 42; and no quotient is so near to the middle of two doubles that the last rounding errs.
   */
  quotient(units, rest) {
    const { fives, upperFives } = this;
    const about = units / fives;
    const product = about * fives;
    const upperAbout = upper(about);
    const [lowerAbout, lowerFives] = [about - upperAbout, fives - upperFives];
    const error = upperAbout * upperFives - product + upperAbout * lowerFives + lowerAbout * upperFives + lowerAbout * lowerFives;
    return (about + (units - product - error + rest) / fives) / this.twos;
  }
}

const ofPlaces = []; // each made once: powers take their time

/** That of units of so many places. */
export const nearestAt = (places) => (ofPlaces[places] ??= new Nearest(places));

/** The doubles nearest to numbers of so many units. */
export function doubles(numbers, places) {
  const nearest = nearestAt(places);
  const words = new Uint32Array(numbers.buffer, numbers.byteOffset, 2 * numbers.length);
  const all = new Float64Array(numbers.length);
  for (let i = 0; i < all.length; i++) all[i] = nearest.of(words[2 * i + 1] | 0, words[2 * i]);
  return all;
}
