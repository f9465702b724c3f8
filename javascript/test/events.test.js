// Geometries of any kind as events and numbers, and the doubles of many digits.
import test from 'node:test';
import assert from 'node:assert/strict';
import { STATUS, decimal } from '../src/node.js';
import { doubles } from '../src/decimals.js';
import { rowsOf, thrown, wkt } from './support.js';

const B = (kind, dimension = 'XY') => ({ kind, dimension });
const ROWS = [
  ['POINT(1 -2)', [B('Point'), 1, null], [1n, -2n]],
  ['POINT ZM EMPTY', [B('Point', 'XYZM'), 0, null], []],
  ['POLYGON((1 2,3 4),EMPTY)', [B('Polygon'), 2, 0, null], [1n, 2n, 3n, 4n]],
  ['POLYGON(EMPTY)', [B('Polygon'), 0, null], []],
  ['POLYGON EMPTY', [B('Polygon'), null], []],
  ['MULTIPOINT M(1 2 3,EMPTY)', [B('MultiPoint', 'XYM'), 1, 0, null], [1n, 2n, 3n]],
  ['multipolygon Z(((1 2 3)),EMPTY)', [B('MultiPolygon', 'XYZ'), B('Polygon', 'XYZ'), 1, null, B('Polygon', 'XYZ'), null, null], [1n, 2n, 3n]],
  ['GEOMETRYCOLLECTION Z(POINT(1 2),LINESTRING M EMPTY)', [B('GeometryCollection', 'XYZ'), B('Point'), 1, null, B('LineString', 'XYM'), 0, null, null], [1n, 2n]],
];

/** The canonical text of events. */
function textOf({ events, numbers, places }) {
  const WORDS = { XY: '', XYZ: ' Z', XYM: ' M', XYZM: ' ZM' };
  const out = [];
  const open = [];
  let at = 0;
  const add = (item) => (open.length > 0 ? open.at(-1).items.push(item) : out.push(item));
  for (const event of events) {
    if (event === null) {
      const { kind, dimension, items } = open.pop();
      const none = items.length === 0 || (kind === 'Polygon' && items[0] === 'EMPTY');
      const body = kind === 'Point' || kind === 'LineString' ? items[0] : none ? 'EMPTY' : `(${items.join(',')})`;
      const head = open.at(-1)?.kind === 'MultiPolygon' ? '' : `${kind.toUpperCase()}${WORDS[dimension]}${body === 'EMPTY' ? ' ' : ''}`;
      add(head + body);
    } else if (typeof event === 'object') {
      open.push({ ...event, items: [] });
    } else {
      const width = open.at(-1).dimension.length;
      const coordinates = Array.from({ length: event }, () => numbers.slice(at, (at += width)).map((units) => decimal(units, places)).join(' '));
      add(event === 0 ? 'EMPTY' : `(${coordinates.join(',')})`);
    }
  }
  assert.equal(at, numbers.length);
  return out.join('');
}

test('of each kind', () => {
  for (const [text, events, numbers] of ROWS) assert.deepEqual({ ...wkt.readEvents(text, { places: 0 }) }, { events, numbers, places: 0 }, text);
  assert.deepEqual(wkt.readEvents('POINT(1.5 2)').numbers, [1500000000000000000n, 2000000000000000000n]);
  assert.deepEqual(wkt.readEvents('POINT(170 -0.000000000000000000000000000000000001)', { places: 36 }).numbers, [170n * 10n ** 36n, -1n]);
  assert.deepEqual(wkt.readEvents(`POINT(${2n ** 127n - 1n} -${2n ** 127n})`, { places: 0 }).numbers, [2n ** 127n - 1n, -(2n ** 127n)]);
  assert.deepEqual(wkt.readEvents(`POINT(${2n ** 64n - 1n} -${2n ** 64n})`, { places: 0 }).numbers, [2n ** 64n - 1n, -(2n ** 64n)]);
  assert.deepEqual(wkt.readEvents('POINT(1 2) x', { whole: false }).events, [B('Point'), 1, null]);
  assert.equal(thrown(() => wkt.readEvents('POINT(1 2) x')).status, STATUS.NOT_WHOLE);
  assert.equal(thrown(() => wkt.readEvents('POINT(1.5 2)', { places: 0 })).place.start, 6);
  const n = 100000;
  const deep = wkt.readEvents(`${'GEOMETRYCOLLECTION('.repeat(n)}POINT EMPTY${')'.repeat(n)}`).events;
  assert.deepEqual([deep.length, deep[n], deep[n + 1], deep.at(-1)], [2 * n + 3, B('Point'), 0, null]);
});

test('each text that is read has the events of its canonical text', () => {
  let read = 0;
  for (const places of [0, 6, 18, 36]) {
    for (const [text] of [...rowsOf('tests/data/keys.tsv'), ...rowsOf('crates/wkt_tables/stdin')]) {
      const asked = { places, whole: false };
      if (wkt.reads(text, asked)) {
        assert.equal(textOf(wkt.readEvents(text, asked)), wkt.canonical(text, asked));
        read++;
      } else assert.equal(thrown(() => wkt.readEvents(text, asked)).message, thrown(() => wkt.canonical(text, asked)).message);
    }
  }
  assert.ok(read > 1000, String(read));
});

test('doubles are the nearest to units of 64 bits, also beside the middle of two', () => {
  let state = 88172645463325252n;
  const bits = (n) => {
    state ^= BigInt.asUintN(64, state << 13n);
    state ^= state >> 7n;
    state ^= BigInt.asUintN(64, state << 17n);
    return BigInt.asUintN(n, state);
  };
  for (const places of [0, 6, 14, 15, 16, 18, 19, 22, 25, 36]) {
    const units = [];
    for (let i = 0; i < 3000; i++) {
      units.push(BigInt.asIntN(64, bits(64)) >> bits(6));
      // The middle of two doubles, as near as units come.
      let middle = ((1n << 53n) | bits(53) | 1n) * 10n ** BigInt(places);
      while (middle >= 2n ** 63n) middle >>= 1n;
      units.push(middle, -middle, middle > 1n ? middle - 1n : 1n);
    }
    const made = doubles(BigInt64Array.from(units), places);
    units.forEach((it, i) => assert.ok(Object.is(made[i], Number(decimal(it, places))), `${it} of ${places} places`));
  }
});

test('GeoJSON of numbers of any length', () => {
  const numbers = ['0', '-0.5', '123456.789', '-179.999999999999999', '9223.372036854775807', '-9223.372036854775808', '9223.372036854775808', '0.000000000000000001', '9007199254.740993',
    '170141183460469231731', '-0.000001', '99999999999.5', '1.0000001', '8.999999999999999'];
  for (const x of numbers) {
    for (const y of numbers) assert.deepEqual(wkt.toGeoJSONObject(`POINT(${x} ${y})`), { type: 'Point', coordinates: [Number(x), Number(y)] }, `${x} ${y}`);
  }
  // Fewer places leave more room before the point, and the text is refused all the same.
  for (const [text, places] of [['POINT(170141183460469231732 0)', 18], ['POINT(171 0.5)', 36], ['MULTIPOINT(EMPTY,1 99999999999999999999999)', 18]]) {
    const refusal = thrown(() => wkt.canonical(text, { places }));
    assert.equal(thrown(() => wkt.toGeoJSONObject(text, { places })).message, refusal.message, text);
  }
});
