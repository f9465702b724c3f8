// Flat arrays of a geometry.
import { DIMENSIONS, KINDS, STATUS } from './names.js';
import { WktError } from './errors.js';
import { doubles } from './decimals.js';
import { isTyped } from './engine.js';

/** A geometry that is no collection as flat arrays. Its numbers are in units of ten to the minus `places`. */
export class Arrays {
  constructor(kind, dimension, places, numbers, rings, polygons, end) {
    this.kind = kind;
    this.dimension = dimension;
    this.places = places;
    this.numbers = numbers;
    this.rings = rings;
    this.polygons = polygons;
    this.end = end;
  }

  /** The numbers as doubles, each the nearest. */
  get coordinates() {
    return doubles(this.numbers, this.places);
  }
}

const isBigInt = (units) => typeof units === 'bigint';
const isLong = (units) => BigInt.asIntN(64, units) === units;
const isOffset = (at) => Number.isSafeInteger(at) && at >= 0;
const isList = (list) => Array.isArray(list) || isTyped(list);
const checked = (good) => {
  if (!good) throw new WktError(STATUS.NOT_ARRAYS);
};

/** Copies of lists, since what a caller's list runs when it is read could call the module too. */
function longsOf(numbers) {
  if (numbers instanceof BigInt64Array) return new BigInt64Array(numbers);
  const all = Array.from(numbers);
  if (!all.every(isBigInt)) throw new TypeError('numbers are of BigInt');
  checked(all.every(isLong));
  return BigInt64Array.from(all);
}

function offsetsOf(offsets) {
  if (offsets instanceof Uint32Array) return new Uint32Array(offsets);
  const all = Array.from(offsets);
  checked(all.every(isOffset));
  return all;
}

/** Given arrays as the module takes them: the numbers of the kind and of the dimension, and three lists. */
export function given({ kind, dimension, numbers, rings, polygons }) {
  if (![numbers, rings, polygons].every(isList)) throw new TypeError('numbers, rings and polygons are arrays');
  const units = longsOf(numbers);
  const named = [KINDS.indexOf(kind), DIMENSIONS.indexOf(dimension)];
  checked(!named.includes(-1));
  return [...named, units, offsetsOf(rings), offsetsOf(polygons)];
}
