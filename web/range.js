// Least and greatest numbers, with the digits that stand in the text.

/** Compares two numbers of canonical text exactly: less than 0, 0 or more than 0, as `a` is less than, equal to or greater than `b`. */
export function compare(a, b) {
  const negative = a[0] === '-';
  if (negative !== (b[0] === '-')) return negative ? -1 : 1;
  const [wholeA, fractionA = ''] = (negative ? a.slice(1) : a).split('.');
  const [wholeB, fractionB = ''] = (negative ? b.slice(1) : b).split('.');
  const places = Math.max(fractionA.length, fractionB.length);
  const one = wholeA + fractionA.padEnd(places, '0');
  const other = wholeB + fractionB.padEnd(places, '0');
  if (one === other) return 0;
  const less = one.length === other.length ? one < other : one.length < other.length;
  return less !== negative ? -1 : 1;
}

/** The ends of some ranges, of x, y, z and m, by their names; null where no number has such an axis. */
export const boundsOf = (ranges) => Object.fromEntries(ranges.map(({ low, high, lowText, highText }, i) => ['xyzm'[i], low > high ? null : [lowText, highText]]));

/** The least and the greatest of some numbers. Each is given as the double nearest to it, and as its text. */
export class Range {
  low = Infinity;
  high = -Infinity;
  lowText = '';
  highText = '';

  get empty() {
    return this.low > this.high;
  }

  /** Whether a number with this double is surely neither the least nor the greatest. */
  within(value) {
    return value > this.low && value < this.high;
  }

  /** Takes what another has. */
  join({ low, high, lowText, highText }) {
    if (low > high || (this.within(low) && this.within(high))) return;
    this.add(low, lowText);
    this.add(high, highText);
  }

  add(value, text) {
    if (value < this.low || (value === this.low && text !== this.lowText && compare(text, this.lowText) < 0)) {
      this.low = value;
      this.lowText = text;
    }
    if (value > this.high || (value === this.high && text !== this.highText && compare(text, this.highText) > 0)) {
      this.high = value;
      this.highText = text;
    }
  }
}
