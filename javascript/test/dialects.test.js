// What other tools write, read by name: tests/data/dialects.tsv, at each call that takes dialects.
import test from 'node:test';
import assert from 'node:assert/strict';
import { STATUS, WktError } from '../src/node.js';
import { bytes, rowsOf, texts, thrown, wkt } from './support.js';

const ESCAPES = { n: '\n', r: '\r', t: '\t', '\\': '\\' };
const ROWS = rowsOf('tests/data/dialects.tsv').map(([dialect, places, text, srid, key, place]) =>
  ({ dialect, places: Number(places), text: text.replace(/\\(.)/g, (_, c) => ESCAPES[c]), srid: srid === '' ? null : Number(srid), key, place: Number(place) }));
const read = ROWS.filter(({ key }) => key !== 'refused');
const refused = ROWS.filter(({ key }) => key === 'refused');

test('there are some of each', () => assert.ok(read.length > 35 && refused.length > 35, `${read.length} and ${refused.length}`));

test('texts that are read', () => {
  for (const { dialect, places, text, key } of read) {
    const asked = { dialect, places };
    const exact = { places };
    assert.equal(wkt.canonical(text, asked), key, text);
    assert.equal(texts(wkt.canonicalBytes(bytes(text), asked)), key);
    assert.equal(wkt.reads(text, asked), true);
    assert.equal(wkt.explain(text, asked), null);
    assert.equal(wkt.same(text, key, asked), true);
    assert.equal(wkt.same(key, text, asked), true);
    assert.equal(wkt.same(text, 'POINT(7 7)', asked), false);
    assert.deepEqual(wkt.front(`${text},x`, asked), { canonical: key, end: text.trimEnd().length });
    assert.deepEqual(wkt.columns([text, null], asked), { texts: [key, null], statuses: Uint8Array.of(0, STATUS.NULL) });
    assert.deepEqual(wkt.readEvents(text, asked), wkt.readEvents(key, exact));
    assert.deepEqual(answer(() => wkt.toGeoJSONObject(text, asked)), answer(() => wkt.toGeoJSONObject(key, exact)));
    assert.deepEqual(answer(() => wkt.toGeoJSON(text, asked)), answer(() => wkt.toGeoJSON(key, exact)));
    const arrays = answer(() => wkt.arrays(text, asked));
    if (typeof arrays === 'object') assert.equal(wkt.fromArrays(arrays), key);
    else assert.ok(arrays === STATUS.COLLECTION || arrays === STATUS.TOO_LARGE, `${text}: ${arrays}`);
  }
});

/** What a call gives, or the status of its error, or its words. */
function answer(call) {
  try {
    return call();
  } catch (error) {
    return error instanceof WktError ? error.status : error.message;
  }
}

test('texts that are refused, and where', () => {
  for (const { dialect, places, text, place } of refused) {
    const asked = { dialect, places };
    const error = thrown(() => wkt.canonical(text, asked));
    assert.equal(error.place.start + 1, place, text);
    assert.equal(wkt.reads(text, asked), false);
    assert.deepEqual(wkt.explain(text, asked), error.place);
    assert.deepEqual(wkt.columns([text], asked), { texts: [null], statuses: Uint8Array.of(error.status) });
    for (const call of [() => wkt.same(text, 'POINT(1 2)', asked), () => wkt.same('POINT(1 2)', text, asked), () => wkt.arrays(text, asked),
      () => wkt.readEvents(text, asked), () => wkt.toGeoJSONObject(text, asked), () => wkt.toGeoJSON(text, asked)]) assert.deepEqual(thrown(call).place, error.place, text);
  }
});

test('the SRID, with no dialect asked for', () => {
  for (const { text, srid } of ROWS) {
    assert.equal(wkt.srid(text), srid, text);
    assert.equal(wkt.srid(bytes(text)), srid);
  }
  assert.equal(wkt.srid('SRID=7;nothing more'), 7);
});

test('places in hints', () => {
  const hint = (number, places = 18) => wkt.explain(`POINT(1 ${number})`, { places, dialect: 'exponents' }).hint;
  assert.equal(hint('1e-20'), '1e-20 has 20 places, at most 18 are allowed');
  assert.equal(hint('-1.250E-18'), '-1.250E-18 has 20 places, at most 18 are allowed');
  assert.equal(hint('1200e-5', 2), '1200e-5 has 3 places, at most 2 are allowed');
  assert.equal(hint('100.e-3', 0), '100.e-3 has 1 places, at most 0 are allowed');
  assert.equal(hint('1.2345e3', 0), '1.2345e3 has 1 places, at most 0 are allowed');
  assert.equal(hint(`1e-${'9'.repeat(50)}`), `1e-${'9'.repeat(34)}... has too many places, at most 18 are allowed`);
});

test('long texts', () => {
  const all = { dialect: 'ewkt,exponents,nan' };
  for (const n of [500, 5000, 200000]) {
    const text = `SRID=4326;LINESTRING(${'1e1 2 3,'.repeat(n)}1 2 3)`;
    const key = `LINESTRING Z(${'10 2 3,'.repeat(n)}1 2 3)`;
    assert.ok(wkt.canonical(text, all) === key);
    assert.ok(wkt.same(text, key, all));
    assert.deepEqual(wkt.arrays(text, all).numbers.subarray(-3), BigInt64Array.of(1000000n, 2000000n, 3000000n));
    assert.equal(wkt.explain(`${text.slice(0, -1)},nan`, all).start, text.length);
    // Each number is as long as it can be.
    assert.ok(wkt.canonical(`LINESTRING(${'1e37 0,'.repeat(n)}1e37 0)`, { ...all, places: 0 }).length > 39 * n);
  }
  wkt.release();
});

test('what is no dialect', () => {
  for (const dialect of ['EWKT', 'ekt', 'ewkt;nan', ',', 'srid,', 'constructor', '\u202e']) assert.throws(() => wkt.canonical('POINT(1 2)', { dialect }), RangeError);
  for (const dialect of [null, 512, ['ewkt'], true]) assert.throws(() => wkt.canonical('POINT(1 2)', { dialect }), TypeError);
  assert.equal(wkt.canonical('SRID=1;POINT(1 2)', { dialect: ' srid , nan' }), 'POINT(1 2)');
  for (const call of [() => wkt.lines('SRID=1;POINT(1 2)', { dialect: 'srid' }), () => wkt.lineStream({ dialect: 'srid' })]) assert.throws(call, TypeError);
  assert.equal(wkt.lines('SRID=1;POINT(1 2)\n', { dialect: '' }), 'refused\n');
});
