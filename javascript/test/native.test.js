// The answers of the native library to made texts: native.py writes them to the file that WKT_NATIVE names.
import test from 'node:test';
import assert from 'node:assert/strict';
import { readFileSync } from 'node:fs';
import { STATUS, WktError } from '../src/node.js';
import { bytes, wkt } from './support.js';

const file = process.env.WKT_NATIVE;
const skip = !file && 'WKT_NATIVE names no file';
const rows = file ? readFileSync(file, 'utf8').split('\n').filter(Boolean).map((line) => JSON.parse(line)) : [];
const made = rows.filter((row) => row.explain !== undefined);

/** What a call answers, or the status of its error. */
function answer(call) {
  try {
    return call();
  } catch (error) {
    if (!(error instanceof WktError)) throw error;
    return error.status;
  }
}

function compare(name, wanted, got) {
  test(name, { skip }, () => {
    for (const row of made) assert.deepEqual(got(row, { places: row.places, whole: row.whole }), wanted(row), JSON.stringify(row.text));
  });
}

test('there are some of each', { skip }, () => {
  assert.ok(made.length >= 40000);
  assert.ok(made.filter((row) => typeof row.canonical === 'string').length > 5000);
  assert.ok(made.filter((row) => Array.isArray(row.arrays)).length > 2500);
  assert.ok(new Set(made.map((row) => row.explain?.[7])).size > 20, 'hints');
});

compare('canonical', (row) => row.canonical, ({ text }, asked) => answer(() => wkt.canonical(text, asked)));
compare('reads', (row) => typeof row.canonical === 'string', ({ text }, asked) => wkt.reads(text, asked));
compare('infer', (row) => row.infer, ({ text }) => answer(() => Object.values(wkt.infer(text))));
compare('lines', (row) => row.line, ({ text, places }) => wkt.lines(text.replaceAll('\n', ' '), { places }));

compare('explain', (row) => row.explain, ({ text, explain }, asked) => {
  const why = wkt.explain(text, asked);
  if (why === null) return null;
  const shown = `${why.caret} ${why.expected} was expected${why.hint ? ` (${why.hint})` : ''}`;
  return [why.status, why.message, why.start, why.stop, why.line, why.column, why.expected, why.hint, explain[8] && why.cause, explain[9] && shown, why.code];
});

/** An explanation whose places count bytes, as one of the string. */
const counted = (why, text) => why && { ...why, start: bytes(text.slice(0, why.start)).length, stop: bytes(text.slice(0, why.stop)).length };
const asked = ({ places, whole }) => ({ places, whole });
compare('explain of bytes', (row) => counted(wkt.explain(row.text, asked(row)), row.text), ({ text }, options) => wkt.explain(bytes(text), options));

compare('arrays', (row) => row.arrays, ({ text }, asked) => answer(() => {
  const { kind, dimension, numbers, rings, polygons } = wkt.arrays(text, asked);
  return [kind, dimension, [...numbers].map(String), [...rings], [...polygons]];
}));

compare('same', (row) => row.same, ({ text, before }, asked) => answer(() => wkt.same(before, text, asked)));

test('columns', { skip }, () => {
  for (const places of [0, 6, 18, 36]) {
    const some = made.filter((row) => row.places === places && row.whole);
    const { texts, statuses } = wkt.columns(some.map((row) => row.text), { places });
    assert.deepEqual(texts.map((text, i) => text ?? statuses[i]), some.map((row) => row.canonical));
  }
});

test('from arrays', { skip }, () => {
  const given = rows.filter((row) => row.explain === undefined);
  assert.ok(given.filter((row) => row.text !== STATUS.NOT_ARRAYS).length > 500);
  for (const { arrays: [kind, dimension, numbers, rings, polygons, places], text } of given) {
    const arrays = { kind, dimension, numbers: numbers.map(BigInt), rings, polygons, places };
    assert.equal(answer(() => wkt.fromArrays(arrays)), text, JSON.stringify([kind, dimension, numbers, rings, polygons]));
  }
});
