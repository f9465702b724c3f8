// GeoJSON, to texts and from texts.
import test from 'node:test';
import assert from 'node:assert/strict';
import { GeoJSONError, STATUS } from '../src/node.js';
import { NumberText, parseExact } from '../src/json.js';
import { rowsOf, thrown, wkt } from './support.js';

// A text, its GeoJSON, and the canonical text that this gives back where it isn't that of the text.
const PAIRS = [
  ['point ( 01.50 -12345678901234567890.000000000000000001 )', '{"type":"Point","coordinates":[1.5,-12345678901234567890.000000000000000001]}'],
  ['POINT EMPTY', '{"type":"Point","coordinates":[]}'],
  ['POINT Z(1 2 3)', '{"type":"Point","coordinates":[1,2,3]}'],
  ['LINESTRING Z(1 2 3,4 5 6)', '{"type":"LineString","coordinates":[[1,2,3],[4,5,6]]}'],
  ['LINESTRING EMPTY', '{"type":"LineString","coordinates":[]}'],
  ['POLYGON((0 0,1 0,0.1 1,0 0),EMPTY,(1 1))', '{"type":"Polygon","coordinates":[[[0,0],[1,0],[0.1,1],[0,0]],[],[[1,1]]]}'],
  ['MULTIPOINT(1 2,(3 4))', '{"type":"MultiPoint","coordinates":[[1,2],[3,4]]}'],
  ['MULTILINESTRING((1 2,3 4),EMPTY)', '{"type":"MultiLineString","coordinates":[[[1,2],[3,4]],[]]}'],
  ['MULTIPOLYGON(((0 0,1 0,0 1,0 0),(2 2)),EMPTY,((3 3)))', '{"type":"MultiPolygon","coordinates":[[[[0,0],[1,0],[0,1],[0,0]],[[2,2]]],[],[[[3,3]]]]}'],
  ['GEOMETRYCOLLECTION EMPTY', '{"type":"GeometryCollection","geometries":[]}'],
  ['GEOMETRYCOLLECTION(POINT EMPTY,GEOMETRYCOLLECTION(MULTIPOINT(1 2)),GEOMETRYCOLLECTION EMPTY,POINT(3 4))',
    '{"type":"GeometryCollection","geometries":[{"type":"Point","coordinates":[]},{"type":"GeometryCollection","geometries":[{"type":"MultiPoint","coordinates":[[1,2]]}]},{"type":"GeometryCollection","geometries":[]},{"type":"Point","coordinates":[3,4]}]}'],
  ['GEOMETRYCOLLECTION Z(GEOMETRYCOLLECTION Z(POINT Z(1 2 3)),LINESTRING Z(1 2 3))',
    '{"type":"GeometryCollection","geometries":[{"type":"GeometryCollection","geometries":[{"type":"Point","coordinates":[1,2,3]}]},{"type":"LineString","coordinates":[[1,2,3]]}]}'],
  // Z of what is empty isn't in GeoJSON.
  ['POINT Z EMPTY', '{"type":"Point","coordinates":[]}', 'POINT EMPTY'],
  ['GEOMETRYCOLLECTION Z(POINT Z(1 2 3),POINT(4 5))',
    '{"type":"GeometryCollection","geometries":[{"type":"Point","coordinates":[1,2,3]},{"type":"Point","coordinates":[4,5]}]}', 'GEOMETRYCOLLECTION(POINT Z(1 2 3),POINT(4 5))'],
];

/** What a call gives, or the words of its error. */
function said(call) {
  try {
    return call();
  } catch (error) {
    return `${error.name}: ${error.message}`;
  }
}

test('an object is what JSON.parse makes of the text, to the last bit', () => {
  let seed = 1;
  const digits = (n) => Array.from({ length: n }, () => (seed = (seed * 48271) % 2147483647) % 10).join('');
  const texts = rowsOf('crates/wkt_tables/stdin').map(([text]) => text).filter((text) => wkt.reads(text));
  for (let whole = 0; whole < 19; whole++) {
    for (let places = 0; places < 19; places++) texts.push(`MULTIPOINT(-${digits(whole)}.${digits(places)}1 0.${digits(places)}9,${digits(whole)}7 ${digits(whole)}3.5)`);
  }
  let read = 0;
  for (const text of texts) {
    for (const m of ['refuse', 'drop', 'keep']) {
      const made = said(() => wkt.toGeoJSONObject(text, { m }));
      assert.deepStrictEqual(made, said(() => JSON.parse(wkt.toGeoJSON(text, { m }))), text);
      read += typeof made === 'object';
    }
  }
  assert.ok(read > 1500, `${read} read`);
  const deep = 'GEOMETRYCOLLECTION('.repeat(20000);
  let made = wkt.toGeoJSONObject(`${deep}POINT(1 2)${')'.repeat(20000)}`);
  for (let i = 0; i < 20000; i++) [made] = made.geometries;
  assert.deepEqual(made, { type: 'Point', coordinates: [1, 2] });
});

test('each form, to text and back', () => {
  for (const [text, json, back] of PAIRS) {
    assert.equal(wkt.toGeoJSON(text), json);
    assert.equal(wkt.fromGeoJSON(json), back ?? wkt.canonical(text));
    assert.deepEqual(wkt.toGeoJSONObject(text), JSON.parse(json));
  }
  assert.equal(wkt.toGeoJSON('POINT(1 2) x', { whole: false }), '{"type":"Point","coordinates":[1,2]}');
  assert.equal(thrown(() => wkt.toGeoJSON('POINT(0.5 2)', { places: 0 })).hint, '0.5 has 1 places, at most 0 are allowed');
});

test('what has no form', () => {
  assert.throws(() => wkt.toGeoJSON('POINT M(1 2 3)'), GeoJSONError);
  assert.throws(() => wkt.toGeoJSON('GEOMETRYCOLLECTION(POINT M EMPTY)'), GeoJSONError);
  assert.throws(() => wkt.toGeoJSON('MULTIPOINT(1 2,EMPTY)'), GeoJSONError);
  assert.equal(wkt.toGeoJSON('POINT ZM(1 2 3 4)', { m: 'drop' }), '{"type":"Point","coordinates":[1,2,3]}');
  assert.equal(wkt.toGeoJSON('MULTILINESTRING M((1 2 3,4 5 6),(7 8 9))', { m: 'drop' }), '{"type":"MultiLineString","coordinates":[[[1,2],[4,5]],[[7,8]]]}');
  assert.equal(wkt.toGeoJSON('MULTIPOINT M(1 2 3,4 5 6)', { m: 'keep' }), '{"type":"MultiPoint","coordinates":[[1,2,3],[4,5,6]]}');
  assert.throws(() => wkt.toGeoJSON('POINT(1 2)', { m: 'lose' }), TypeError);
});

test('what is kept of the keys, through GeoJSON', () => {
  let through = 0;
  for (const row of rowsOf('tests/data/keys.tsv')) {
    const key = row[4];
    if (key === 'refused') continue;
    let json;
    try {
      json = wkt.toGeoJSON(key);
    } catch (error) {
      assert.ok(error instanceof GeoJSONError && / Z?M[( ]|EMPTY/.test(key), key);
      JSON.parse(/MULTIPOINT.*EMPTY/.test(key) ? '0' : wkt.toGeoJSON(key, { m: 'keep' }));
      continue;
    }
    JSON.parse(json);
    const back = wkt.fromGeoJSON(json);
    assert.equal(wkt.toGeoJSON(back), json);
    // Z of what is empty, or of a collection alone, isn't in GeoJSON.
    if (/\d/.test(key) && !key.startsWith('GEOMETRYCOLLECTION')) {
      assert.equal(back, key);
      through++;
    }
  }
  assert.ok(through > 50, String(through));
});

test('numbers of GeoJSON, exactly as they are written', () => {
  const point = (x) => `{"coordinates" : [ ${x},\n2 ] , "type":"Point"}`;
  const rows = [['1.50', '1.5'], ['-0', '0'], ['-0.0', '0'], ['1e2', '100'], ['12.5E-1', '1.25'], ['-1.5e+3', '-1500'], ['5e-7', '0.0000005'], ['0.001e2', '0.1'],
    ['0e999999999', '0'], ['0.10e1', '1'], ['100e-2', '1'], ['12345678901234567890.5', '12345678901234567890.5'], ['0.1000000000000000055', 'refused'],
    ['9007199254740993', '9007199254740993'], ['1e400', 'refused'], ['1e-400', 'refused'], ['1e39', 'refused'], ['1e20', '100000000000000000000'], ['1e-18', '0.000000000000000001'], ['1e-19', 'refused'],
    [`1${'0'.repeat(100)}e-100`, '1'], [`0.${'0'.repeat(100)}1e101`, '1']];
  for (const [written, key] of rows) {
    if (key === 'refused') {
      const error = thrown(() => wkt.fromGeoJSON(point(written)));
      assert.deepEqual([error.status, error.place], [STATUS.BAD_NUMBER, null], written);
    } else assert.equal(wkt.fromGeoJSON(point(written)), `POINT(${key} 2)`, written);
  }
  assert.equal(wkt.fromGeoJSON(point('-1e-36'), { places: 36 }), 'POINT(-0.000000000000000000000000000000000001 2)');
  assert.equal(wkt.toGeoJSON('POINT(0.123456789012345678901234 -170)', { places: 24 }), '{"type":"Point","coordinates":[0.123456789012345678901234,-170]}');
  assert.equal(thrown(() => wkt.fromGeoJSON(point('180'), { places: 36 })).message, 'with 18 places the number is read');
  assert.equal(thrown(() => wkt.fromGeoJSON(point('1e-37'), { places: 36 })).message, '0.0000000000000000000000000000000000001 has 37 places, at most 36 are allowed');
  assert.equal(thrown(() => wkt.fromGeoJSON(point('0.1234567'), { places: 6 })).message, '0.1234567 has 7 places, at most 6 are allowed');
  assert.equal(thrown(() => wkt.fromGeoJSON(point('1e500'))).message, '1e500 is too large');
});

test('GeoJSON as an object', () => {
  assert.equal(wkt.fromGeoJSON({ type: 'Point', coordinates: [1e-7, -0], bbox: [0, 0, 1, 1] }), 'POINT(0.0000001 0)');
  assert.equal(wkt.fromGeoJSON({ type: 'LineString', coordinates: [[12345678901234567890n, 1e21], [0.1, 2]] }, { places: 6 }), 'LINESTRING(12345678901234567890 1000000000000000000000,0.1 2)');
  for (const x of [NaN, Infinity, '1', null, undefined, [1]]) assert.throws(() => wkt.fromGeoJSON({ type: 'Point', coordinates: [x, 2] }), GeoJSONError);
  const itself = { type: 'GeometryCollection', geometries: [] };
  const twice = { type: 'GeometryCollection', geometries: [itself, itself] };
  assert.equal(wkt.fromGeoJSON(twice), 'GEOMETRYCOLLECTION(GEOMETRYCOLLECTION EMPTY,GEOMETRYCOLLECTION EMPTY)');
  itself.geometries.push(twice);
  assert.throws(() => wkt.fromGeoJSON(itself), TypeError);
});

test('what is no geometry of GeoJSON', () => {
  const none = ['null', '7', '"Point"', '[]', '{}', '{"type":"Circle"}', '{"type":7}', '{"type":"Point"}', '{"type":"Point","coordinates":7}', '{"type":"Point","coordinates":["1","2"]}',
    '{"type":"Point","coordinates":[1]}', '{"type":"Point","coordinates":[1,2,3,4]}', '{"type":"Point","coordinates":[[1,2]]}', '{"type":"MultiPoint","coordinates":[[]]}',
    '{"type":"LineString","coordinates":[1,2]}', '{"type":"LineString","coordinates":[[1,2],[1,2,3]]}', '{"type":"Polygon","coordinates":[[1,2]]}', '{"type":"GeometryCollection"}',
    '{"type":"GeometryCollection","geometries":[null]}', '{"type":"GeometryCollection","geometries":{}}', '{"type":"Feature","geometry":{"type":"Point","coordinates":[1,2]}}',
    '{"type":"FeatureCollection","features":[]}', '{"type":"__proto__"}', '{"__proto__":{"type":"Point","coordinates":[1,2]}}'];
  for (const json of none) assert.throws(() => wkt.fromGeoJSON(json), GeoJSONError, json);
  for (const value of [undefined, 7, [], null, () => 1]) assert.throws(() => wkt.fromGeoJSON(value), GeoJSONError);
  // Lists that lack what they count.
  const lacking = new Array(2);
  for (const [type, coordinates] of [['Point', lacking], ['LineString', lacking], ['Polygon', [[[1, 2]].concat(lacking)]], ['MultiPolygon', [lacking]]]) {
    assert.throws(() => wkt.fromGeoJSON({ type, coordinates }), GeoJSONError);
  }
});

// JSON.parse says what is JSON, and what it means.
const JSONS = ['', ' ', '{', '[', '[1', '[1,', '[1,]', '[,1]', '[1 2]', '{"a"}', '{"a":}', '{"a":1,}', '{a:1}', "{'a':1}", '{"a":1 "b":2}', '1 2', 'tru', 'true', 'false', 'null', 'nul', 'truex',
  '01', '-', '-1', '+1', '1.', '.5', '1.5', '1e', '1e5', '1E+5', '1e-', '--1', '0x1', 'NaN', '[[[]]]', '[]]', '{}}', '{"a":{"b":[1,{"c":null}],"d":"x"},"a":2}', '"\\u0041\\n\\"\\\\"', '"\\x"', '"\\u12"',
  '"a\nb"', '"a\tb"', '"ab', '"ab\\', '"\\"', '" \u2028 \ud800"', '\ufeff1', '[1]\u00a0', ' \t\r\n[ 1 , 2 ] ', '{"":0}', '{"1":1,"0":0}', '{"__proto__":1}', '[1,2', '{"a":1', '{"a":[}', '[{]', '[1}', '{"a":1]', '//1', '1//'];
const asDoubles = (value) => value instanceof NumberText ? Number(value.text)
  : Array.isArray(value) ? value.map(asDoubles)
    : value !== null && typeof value === 'object' ? Object.fromEntries(Object.entries(value).map(([key, item]) => [key, asDoubles(item)])) : value;

test('a prototype that others have changed', () => {
  Object.assign(Object.prototype, { list: [], object: {} });
  try {
    assert.equal(wkt.fromGeoJSON('{"type":"LineString","coordinates":[[1,2],[3,4]]}'), 'LINESTRING(1 2,3 4)');
  } finally {
    delete Object.prototype.list;
    delete Object.prototype.object;
  }
});

test('JSON is what JSON.parse takes, and means the same', () => {
  for (const text of JSONS) {
    let wanted;
    try {
      wanted = JSON.stringify(JSON.parse(text));
    } catch {
      assert.throws(() => parseExact(text), SyntaxError, text);
      assert.throws(() => wkt.fromGeoJSON(text), SyntaxError, text);
      continue;
    }
    assert.equal(JSON.stringify(asDoubles(parseExact(text))), wanted, text);
  }
});

test('random JSON', () => {
  let seed = 7;
  const below = (n) => ((seed = (Math.imul(seed, 1664525) + 1013904223) >>> 0) / 2 ** 32 * n) | 0;
  const pieces = ['[', ']', '{', '}', ',', ':', '"a"', '"b"', '1', '-0', '0.5', '1e3', ' ', 'true', 'null', '"\\n"', '.', '-', 'e', '"'];
  let read = 0;
  for (let i = 0; i < 50000; i++) {
    let text = below(2) ? '[' : '';
    for (let k = below(9); k > 0; k--) text += pieces[below(pieces.length)];
    if (text[0] === '[') text += ']';
    let wanted = null;
    try {
      wanted = JSON.stringify(JSON.parse(text));
      read++;
    } catch {
      assert.throws(() => parseExact(text), SyntaxError, text);
    }
    if (wanted !== null) assert.equal(JSON.stringify(asDoubles(parseExact(text))), wanted, text);
  }
  assert.ok(read > 500, String(read));
});
