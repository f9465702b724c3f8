// Flat arrays, from texts and back.
import test from 'node:test';
import assert from 'node:assert/strict';
import { STATUS, decimal } from '../src/node.js';
import { thrown, wkt } from './support.js';

test('of texts', () => {
  const arrays = wkt.arrays('MULTIPOLYGON Z(((0 0 1.5,1 0 1,0 1 1,0 0 1),EMPTY),EMPTY)', { places: 1 });
  assert.deepEqual([arrays.kind, arrays.dimension, arrays.places], ['MultiPolygon', 'XYZ', 1]);
  assert.deepEqual(arrays.rings, Uint32Array.of(0, 4, 4));
  assert.deepEqual(arrays.polygons, Uint32Array.of(0, 2, 2));
  assert.deepEqual(arrays.numbers, BigInt64Array.of(0n, 0n, 15n, 10n, 0n, 10n, 0n, 10n, 10n, 0n, 0n, 10n));
  const point = wkt.arrays('POINT(1 2)');
  assert.deepEqual([point.places, [...point.rings], [...point.polygons]], [6, [0, 1], [0, 1]]);
  const none = wkt.arrays('POLYGON EMPTY');
  assert.deepEqual([[...none.numbers], [...none.rings], [...none.polygons]], [[], [0], [0, 0]]);
  assert.equal(wkt.arrays(' POINT(1 2) 𝄞', { whole: false }).end, 11);
  assert.equal(thrown(() => wkt.arrays('GEOMETRYCOLLECTION EMPTY')).status, STATUS.COLLECTION);
  assert.equal(thrown(() => wkt.arrays('POINT(9.223372036854775808 0)', { places: 18 })).status, STATUS.TOO_LARGE);
});

test('of keys', () => {
  for (const [text, rings] of [['POLYGON(EMPTY,(1 2))', [0, 0, 1]], ['POLYGON(EMPTY)', [0, 0]], ['polygon empty', [0]]]) {
    assert.deepEqual([...wkt.arrays(text).rings], rings);
    const key = wkt.arrays(wkt.canonical(text));
    assert.deepEqual([[...key.numbers], [...key.rings], [...key.polygons]], [[], [0], [0, 0]]);
  }
});

test('coordinates are the nearest doubles', () => {
  const of = (text, places) => [...wkt.arrays(text, { places }).coordinates];
  assert.deepEqual(of('POINT(0.1 -123456789.123456789)', 9), [0.1, -123456789.123456789]);
  assert.deepEqual(of('POINT(9.223372036854775807 -9.223372036854775808)', 18), [9.223372036854775807, -9.223372036854775808]);
  // Numbers that no double holds: the quotients of doubles would be rounded twice.
  for (const number of ['0.300000000000000017', '1.000000000000000112', '-0.123456789012345678', '8.999999999999999999']) {
    assert.equal(of(`POINT(${number} 0)`, 18)[0], Number(number));
  }
  // Ten to the 23rd and more are no doubles.
  for (const [number, places] of [['0.00000000000000000000001', 23], ['-0.000000000000000000000000000000000007', 36], ['0.000000000000000009007199254740993', 33], ['-0.000000000000000009223372036854775808', 36]]) {
    assert.equal(of(`POINT(${number} 0)`, places)[0], Number(number));
  }
});

test('of up to 36 places', () => {
  // Units of 64 bits.
  const rows = [['0.9223372036854775807', 19, 2n ** 63n - 1n], ['-0.000009223372036854775808', 24, -(2n ** 63n)], ['-0.000000000000000000000000000000000001', 36, -1n]];
  for (const [number, places, units] of rows) {
    const arrays = wkt.arrays(`point ( 0 ${number}0 )`, { places });
    assert.deepEqual([...arrays.numbers], [0n, units]);
    assert.equal(wkt.fromArrays(arrays), `POINT(0 ${number})`);
  }
  for (const [number, places] of [['0.9223372036854775808', 19], ['1', 19], ['-0.000009223372036854775809', 24], ['170', 36]]) {
    assert.equal(thrown(() => wkt.arrays(`POINT(0 ${number})`, { places })).status, STATUS.TOO_LARGE);
  }
});

test('decimals', () => {
  const rows = [[-1n, 36, '-0.000000000000000000000000000000000001'], [2n ** 63n - 1n, 36, '0.000000000000000009223372036854775807'],
    [0n, 18, '0'], [-0n, 0, '0'], [15n, 1, '1.5'], [-15n, 2, '-0.15'], [100n, 2, '1'], [-100n, 0, '-100'], [1n, 18, '0.000000000000000001']];
  for (const [units, places, text] of rows) assert.equal(decimal(units, places), text);
  for (const [units, places] of [[5n, 0.5], [5n, '1'], [5n, NaN], [5n, undefined], [5, 1], ['5', 1]]) assert.throws(() => decimal(units, places), TypeError);
  for (const places of [-1, -0.5 * 4]) assert.throws(() => decimal(5n, places), RangeError);
});

test('back to texts', () => {
  const texts = ['POINT(1.5 -2)', 'POINT ZM EMPTY', 'LINESTRING M(1 2 3,4 5 6)', 'POLYGON((0 0,1 0,0 1,0 0),EMPTY)', 'MULTIPOINT(EMPTY,(1 2))',
    'MULTILINESTRING((1 2),EMPTY)', 'MULTIPOLYGON(((0 0,1 0,0 1,0 0)),EMPTY)', 'MULTIPOLYGON EMPTY', 'POLYGON EMPTY', 'LINESTRING EMPTY'];
  for (const text of texts) {
    const arrays = wkt.arrays(text);
    assert.equal(wkt.fromArrays(arrays), text);
    assert.equal(wkt.fromArrays({ ...arrays, numbers: [...arrays.numbers], rings: [...arrays.rings], polygons: [...arrays.polygons] }), text);
  }
  assert.equal(wkt.fromArrays({ kind: 'Point', numbers: [10n, 25n], rings: [0, 1], polygons: [0, 1], places: 1 }), 'POINT(1 2.5)');
  assert.equal(wkt.fromArrays({ kind: 'Point', numbers: [1n, 2n], rings: [0, 1], polygons: [0, 1] }), 'POINT(0.000001 0.000002)');
  // A polygon without an exterior has no rings in canonical text.
  assert.equal(wkt.fromArrays(wkt.arrays('POLYGON(EMPTY,(1 2))')), 'POLYGON EMPTY');
});

test('arrays of no geometry', () => {
  const rows = [
    ['Point', [1n, 2n, 3n, 4n], [0, 2], [0, 1]],
    ['Point', [1n, 2n], [0, 1], [0, 0]],
    ['Point', [1n, 2n], [0, 1], [0, 1, 1]],
    ['LineString', [1n], [0, 1], [0, 1]],
    ['LineString', [1n, 2n], [], []],
    ['LineString', [1n, 2n], [0, 1], []],
    ['LineString', [1n, 2n, 3n, 4n], [0, 1], [0, 1]],
    ['LineString', [1n, 2n, 3n, 4n], [1, 2], [0, 1]],
    ['Polygon', [1n, 2n], [1, 0], [0, 1]],
    ['Polygon', [1n, 2n], [0, 1], [0, 2]],
    ['Polygon', [1n, 2n], [0, 1], [0, 1, 1]],
    ['Polygon', [1n, 2n], [0, 0.5, 1], [0, 2]],
    ['Polygon', [1n, 2n], [0, -1, 1], [0, 2]],
    ['MultiPoint', [1n, 2n, 3n, 4n], [0, 2], [0, 1]],
    ['MultiPolygon', [1n, 2n], [0, 1], [1]],
    ['Circle', [], [0], [0]],
    ['GeometryCollection', [], [0], [0]],
    ['Point', [2n ** 64n, 2n], [0, 1], [0, 1]],
    ['Point', [2n ** 200n, 2n], [0, 1], [0, 1]],
  ];
  for (const [kind, numbers, rings, polygons] of rows) {
    const error = thrown(() => wkt.fromArrays({ kind, numbers, rings, polygons }));
    assert.deepEqual([error.status, error.message], [STATUS.NOT_ARRAYS, 'The arrays are of no geometry'], JSON.stringify([kind, rings, polygons]));
  }
  const point = { kind: 'Point', numbers: [1n, 2n], rings: [0, 1], polygons: [0, 1] };
  assert.equal(thrown(() => wkt.fromArrays({ ...point, rings: [, 1] })).status, STATUS.NOT_ARRAYS);
  assert.equal(thrown(() => wkt.fromArrays({ ...point, rings: [0, 2 ** 32 + 1] })).status, STATUS.NOT_ARRAYS);
  assert.throws(() => wkt.fromArrays({ ...point, numbers: [1n, ,] }), TypeError);
  // A list that calls the module while it is read, and one that isn't as long as it says.
  const calling = Object.defineProperty([0, 1], 0, { get: () => wkt.canonical('LINESTRING(7 7,7 7)').length && 0 });
  assert.equal(wkt.fromArrays({ ...point, rings: calling, polygons: calling }), 'POINT(0.000001 0.000002)');
  const longer = class extends BigInt64Array {
    get length() {
      return 100;
    }
  };
  assert.equal(wkt.fromArrays({ ...point, numbers: longer.of(1n, 2n) }), 'POINT(0.000001 0.000002)');
  assert.equal(thrown(() => wkt.fromArrays({ ...point, dimension: 'XYT' })).status, STATUS.NOT_ARRAYS);
  assert.equal(thrown(() => wkt.fromArrays({ ...point, places: 37 })).status, STATUS.NO_PLACES);
  const view = new DataView(new ArrayBuffer(16));
  for (const numbers of [[1, 2], ['1', '2'], 'ab', undefined, view]) assert.throws(() => wkt.fromArrays({ ...point, numbers }), TypeError);
  for (const rings of [undefined, view]) assert.throws(() => wkt.fromArrays({ ...point, rings }), TypeError);
  assert.throws(() => wkt.fromArrays({ ...point, numbers: view, rings: [0, 0] }), TypeError);
  for (const wrong of [undefined, 7, { ...point, place: 3 }]) assert.throws(() => wkt.fromArrays(wrong), TypeError);
});
