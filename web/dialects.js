// What other tools write beyond the grammar: the dialects, with the words of their boxes.

/** By their names: the box, what it is for, and the cause by which a text is refused without. */
export const DIALECTS = {
  srid: { words: 'SRID=4326;', cause: 'srid', title: 'An SRID in front of a text is left out, and shown beside. It is no part of the geometry.' },
  untagged: { words: 'Z without a word', cause: 'dimension', title: 'POINT(1 2 3) is read as POINT Z(1 2 3), and four numbers as ZM' },
  exponents: { words: 'Exponents', cause: 'exponent', title: '1e-7 is read as 0.0000001' },
  nan: { words: 'nan as EMPTY', cause: 'no_number', title: 'POINT(nan nan) is read as POINT EMPTY' },
};

/** A sentence about a cause, with the box that may have such a text read, where that isn't chosen. */
export function withBox(sentence, cause, dialect) {
  const found = Object.entries(DIALECTS).find(([name, it]) => it.cause === cause && !dialect.split(',').includes(name));
  return found ? `${sentence}; or choose “${found[1].words}” under “Also read”` : sentence;
}
