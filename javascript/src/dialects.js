// What other tools write beyond the grammar, by name: docs/DIALECTS.md.
import { printable } from './printable.js';

/** The bits that a call asks for dialects by: WKT_SRID and the others of include/wkt.h. */
const DIALECTS = new Map([['srid', 512], ['untagged', 1024], ['exponents', 2048], ['nan', 4096], ['ewkt', 512 + 1024]]);

/** The bits of dialects that are named as in `ewkt,exponents`. */
export function dialectsOf(names) {
  if (typeof names !== 'string') throw new TypeError("dialect is a string such as 'ewkt,exponents'");
  if (names === '') return 0;
  let bits = 0;
  for (const name of names.split(',')) {
    const bit = DIALECTS.get(name.trim());
    if (bit === undefined) throw new RangeError(`a dialect is one of ${[...DIALECTS.keys()].join(', ')}, and not ${printable(name.trim())}`);
    bits |= bit;
  }
  return bits;
}
