// A geometry of any kind as events and numbers.
import { DIMENSIONS, KINDS } from './names.js';

/** How many numbers a coordinate has, by the number of its dimension. */
export const WIDTHS = [2, 3, 3, 4];
/** The upper halves of the events with which a geometry begins and ends: those of WKT_EVENT_BEGIN and WKT_EVENT_END. */
export const BEGIN = 2 ** 31;
export const END = 2 ** 32 - 1;

/** A geometry of any kind, in the order of its text. Its numbers are in units of ten to the minus `places`. */
export class Events {
  constructor(events, numbers, places) {
    this.events = events;
    this.numbers = numbers;
    this.places = places;
  }
}

/** So many events there, as words of 32 bits: `{ kind, dimension }` where a geometry begins, null where it ends, or a number. */
export function eventsOf(words, at, count) {
  const made = new Array(count);
  for (let i = 0; i < count; i++) {
    const [low, high] = [words[at / 4 + 2 * i], words[at / 4 + 2 * i + 1]];
    made[i] = high === BEGIN ? { kind: KINDS[low >> 2], dimension: DIMENSIONS[low & 3] } : high === END ? null : low;
  }
  return made;
}

/** So many numbers of 128 bits there, as words of 64 bits. */
export function numbersOf(longs, at, count) {
  const made = new Array(count);
  for (let i = 0; i < count; i++) made[i] = (longs[at / 8 + 2 * i + 1] << 64n) + BigInt.asUintN(64, longs[at / 8 + 2 * i]);
  return made;
}
