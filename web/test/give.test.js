// What the page takes in beside well-known text, and what it gives out: node --test web/test/give.test.js
import assert from 'node:assert/strict';
import { readFileSync } from 'node:fs';
import { test } from 'node:test';
import { load } from '../../javascript/src/node.js';
import { Blocks } from '../block.js';
import { grouped, sentenceOf } from '../causes.js';
import { asRfc7946, cell, formed, tableOf } from '../features.js';
import { describe, found, lengthOf, stepped } from '../hit.js';
import { Summary } from '../summary.js';
import { formsOf, records, turned } from '../takein.js';

const wkt = await load(process.env.WKT_WASM ?? undefined);

// A text; the forms that it has; what each is turned into.
const FORMS = [
  ['\ufeffPOINT(1 2)\nPOINT(3 4)', ['mark'], [['POINT(1 2)', 'POINT(3 4)']]],
  ['"POINT(1 2)"\n\n\'POINT(3 4)\',\n', ['quotes'], [['POINT(1 2)', 'POINT(3 4)']]],
  ['id,geom\n1,"LINESTRING(0 0,1 1)"\n2,"POINT(1\n2)"\n3,\n', ['csv geom'], [['LINESTRING(0 0,1 1)', 'POINT(1 2)']]],
  ['POINT(1 2);a ""b"";POINT EMPTY\r\nPOINT(3 4);;POINT(5 6)\r\n', ['csv 1', 'csv 3'], [['POINT(1 2)', 'POINT(3 4)'], ['POINT EMPTY', 'POINT(5 6)']]],
  ['id,geom\n1,"SRID=4326;LINESTRING(0 0,1 1)"\n2,SRID=4326;POINT EMPTY\n', ['csv geom'], [['SRID=4326;LINESTRING(0 0,1 1)', 'SRID=4326;POINT EMPTY']]],
  ['name\tthe_geom\nx\tPOLYGON((0 0,1 0,1 1,0 0))\n', ['csv the_geom'], [['POLYGON((0 0,1 0,1 1,0 0))']]],
  ['\ufeffid,geom\r\n1,"LINESTRING(0 0,1 1)"\r\n', ['csv geom'], [['LINESTRING(0 0,1 1)']]],
  ['\ufeff{"type":"Point","coordinates":[1,2]}', ['geojson'], [['POINT(1 2)']]],
  ['# two points\n1;POINT(1 2)\n2;POINT(3 4)\n', ['csv 2'], [['POINT(1 2)', 'POINT(3 4)']]],
  ['{"type":"Point","coordinates":[0.1,12345678901234567890]}', ['geojson'], [['POINT(0.1 12345678901234567890)']]],
  ['{"type":"FeatureCollection","features":[{"type":"Feature","geometry":{"type":"Point","coordinates":[1,2,3]}},{"type":"Feature","geometry":null}]}',
    ['geojson'], [['POINT Z(1 2 3)']]],
  ['{"type":"Point","coordinates":[1,2]}\n{"type":"Point","coordinates":[3,4]}\n', ['geojson'], [['POINT(1 2)', 'POINT(3 4)']]],
  ['\x1e{"type":"Point","coordinates":[1,2]}\n', ['geojson'], [['POINT(1 2)']]],
  ['\x1e{"type":"Point","coordinates":[1,2]}\n\x1e{"type":"Point","coordinates":[3,4]}\n', ['geojson'], [['POINT(1 2)', 'POINT(3 4)']]],
  ...['POINT(1 2)', 'LINESTRING(0 0,1 1)\nLINESTRING(2 2,3 3)', 'SRID=4326;POINT(1 2)\nSRID=4326;POINT(3 4)', 'POINT(1,2)', '', 'a,b\n1,2', '"POINT(1 2)', '[1,2]',
    'MULTIPOINT((1 2),(3 4))', 'LINESTRING(0 0,1 1)\nPOINT(1)\nPOINT(2)', 'POINT(1)\nPOINT(2)\nLINESTRING(0 0,1 1)\n'].map((text) => [text, [], []]),
];
test('texts in other clothes', () => {
  for (const [text, forms, texts] of FORMS) {
    const got = formsOf(text, false);
    assert.deepEqual(got.map(({ form, name }) => (name ? `${form} ${name}` : form)), forms, text);
    assert.deepEqual(got.map((form) => turned(text, form, wkt, 18).texts), texts, text);
  }
});

test('what has no text is left out, and said', () => {
  const left = (text) => turned(text, formsOf(text, false)[0], wkt, 18).left;
  assert.deepEqual(left('id,geom\n1,POINT(1 2)\n2,\n'), ['line 3: the cell is empty']);
  // Else the rows behind the quote would be a part of a cell that nobody looks at.
  assert.deepEqual(left('geom,name\nPOINT(1 2),a\nPOINT(3 4),"b\nPOINT(5 6),c\n'), ['line 3: a quote that is opened in this row isn’t closed']);
  for (const end of ['"', '"b', '"b""', '""']) assert.equal(left(`geom,name\nPOINT(1 2),a\nPOINT(3 4),${end}`).length, end === '""' ? 0 : 1, end);
  assert.match(left('[{"type":"Point","coordinates":[1,2]},{"type":"Feature","geometry":null},{"type":"Point","coordinates":[1,2,3,4]}]').join('; '),
    /^feature 2: it has no geometry; feature 3: a position has two numbers, or three, and not 4$/);
  assert.throws(() => turned('{"type":"Point","coordinates":[1,2]', { form: 'geojson' }, wkt, 18), SyntaxError);
});

test('records of RFC 4180', () => {
  const found = [...records('a,"b ""c"",\n d",e\r\n\r\n,"",\nlast', ',')];
  assert.deepEqual(found.map(({ cells }) => cells), [['a', 'b "c",\n d', 'e'], [''], ['', '', ''], ['last']]);
  assert.deepEqual(found.map(({ line }) => line), [1, 3, 4, 5]);
});

const SQUARE = '0 0,1 0,1 1,0 1,0 0';
const TURNED = '0 0,0 1,1 1,1 0,0 0';
// A canonical text; what is asked; the text of RFC 7946, or words of the error.
const RFC = [
  [`POLYGON((${TURNED}),(${SQUARE}))`, {}, `POLYGON((${SQUARE}),(${TURNED}))`],
  [`POLYGON((${TURNED}),(${SQUARE}))`, { winding: 'keep' }, `POLYGON((${TURNED}),(${SQUARE}))`],
  [`MULTIPOLYGON(((${TURNED})),EMPTY,((${SQUARE}),(${SQUARE})))`, {}, `MULTIPOLYGON(((${SQUARE})),EMPTY,((${SQUARE}),(${TURNED})))`],
  [`GEOMETRYCOLLECTION(POINT(1 2),GEOMETRYCOLLECTION(POLYGON((${TURNED})),POLYGON EMPTY),LINESTRING(1 2,3 4))`, {},
    `GEOMETRYCOLLECTION(POINT(1 2),GEOMETRYCOLLECTION(POLYGON((${SQUARE})),POLYGON EMPTY),LINESTRING(1 2,3 4))`],
  // The sign of its area is that of its last decimal place.
  ['POLYGON((0 0,1 1,2 1.999999999999999999999999999999999999,0 0))', {}, 'POLYGON((0 0,2 1.999999999999999999999999999999999999,1 1,0 0))'],
  ['POLYGON((0 0,1 0,1 1))', {}, /doesn’t end where it begins/],
  ['POLYGON((0 0,1 0,1 1))', { rings: 'close' }, 'POLYGON((0 0,1 0,1 1,0 0))'],
  ['POLYGON((0 0,1 0,0 0))', {}, /less than four/],
  ['LINESTRING(1 2)', {}, /less than two/],
  ['MULTILINESTRING((1 2,3 4),(5 6))', {}, /less than two/],
  // Doubles don't tell these corners apart: the sign of the area is exact.
  ['POLYGON((1 1,1 1.000000000000000001,1.000000000000000001 1,1 1))', {}, 'POLYGON((1 1,1.000000000000000001 1,1 1.000000000000000001,1 1))'],
  // A ring is closed without its m.
  ['POLYGON M((0 0 1,1 0 2,1 1 3,0 0 4))', { winding: 'keep' }, 'POLYGON M((0 0 1,1 0 2,1 1 3,0 0 4))'],
  ['POINT ZM EMPTY', {}, 'POINT ZM EMPTY'], ['MULTIPOINT((1 2),(3 4))', {}, 'MULTIPOINT((1 2),(3 4))'],
];
test('rings and lines of RFC 7946', () => {
  for (const [text, asked, wanted] of RFC) {
    const make = () => asRfc7946(text, { winding: 'right-hand', rings: 'refuse', ...asked });
    if (typeof wanted === 'string') assert.equal(make(), wanted);
    else assert.throws(make, (error) => error.name === 'GeoJSONError' && wanted.test(error.message), text);
  }
});

function given(lines, asked) {
  const pieces = formed(lines, { rings: 'refuse', winding: 'keep', m: 'refuse', refused: 'drop', numberOf: (n) => 10 * n, ...asked });
  let text = '';
  for (;;) {
    const { value, done } = pieces.next();
    if (done) return { text, left: value };
    text += value;
  }
}
const LINES = ['POINT(0.1 2)', 'refused', 'LINESTRING(1 2)', 'POINT M(1 2 3)', 'POINT ZM(1 2 3 4)'];

test('features of GeoJSON', () => {
  const { text, left } = given(LINES, { form: 'geojson', m: 'drop' });
  const point = (line, ...coordinates) => ({ type: 'Feature', properties: { line }, geometry: { type: 'Point', coordinates } });
  assert.deepEqual(JSON.parse(text), { type: 'FeatureCollection', features: [point(10, 0.1, 2), point(40, 1, 2), point(50, 1, 2, 3)] });
  assert.deepEqual(left, [{ line: 30, why: 'a line has less than two positions' }]);
  const kept = given(LINES, { form: 'geojson', refused: 'keep' });
  assert.deepEqual(JSON.parse(kept.text).features.map(({ geometry, properties }) => [properties.line, geometry === null, 'refused' in properties]),
    [[10, false, false], [20, true, true], [30, true, true], [40, true, true], [50, true, true]]);
  assert.deepEqual(JSON.parse(given([], { form: 'geojson' }).text), { type: 'FeatureCollection', features: [] });
});

test('features of numbers of any places', () => {
  for (const number of ['0.1234567890123456789', `1${'0'.repeat(30)}`]) assert.match(given([`POINT(${number} 2)`], { form: 'geojson' }).text, new RegExp(`\\[${number},2\\]`));
});

test('canonical lines', () => {
  assert.equal(given(LINES.slice(0, 3), { form: 'wkt' }).text, 'POINT(0.1 2)\nLINESTRING(1 2)\n');
  assert.equal(given(LINES.slice(0, 3), { form: 'wkt', refused: 'keep' }).text, 'POINT(0.1 2)\nrefused\nLINESTRING(1 2)\n');
});

test('a table of refusals', () => {
  const expected = 'a first number, `(` or EMPTY';
  const why = { line: 3, column: 7, expected, cause: 'expected_point', hint: '', message: 'Format', caret: '=POINT("a")\n      ^' };
  assert.deepEqual([...records(tableOf([why]), ',')].map(({ cells }) => cells),
    [['line', 'place', 'expected', 'cause', 'hint', 'message', 'text'], ['3', '7', expected, 'expected_point', '', 'Format', '\'=POINT("a")']]);
  assert.deepEqual(['\u202e', '-1', 'a\nb'].map(cell), ['\\u{202e}', "'-1", 'a\\x0ab']);
  // Many spreadsheets divide a line at semicolons, wherever quotes stand.
  assert.deepEqual(['POINT(1;=1+1;@a; -2', '\uff1d1', -1].map(cell), ["POINT(1;'=1+1;'@a; -2", "'\uff1d1", '-1']);
});

test('a line that is not UTF-8 is refused at the first byte of what is no character', () => {
  // As bytes of Latin-1; the byte. The command says the same.
  const long = '\xc3\xa9'.repeat(1 << 20);
  for (const [line, at] of [['\xff', 1], ['POINT(\xff 2)', 7], ['POINT(1 2) \xe9', 12], ['POINT(1 2) \xe9 x', 12], ['POINT(1 2) \xc3\xa9 \xe2\x82', 15], ['\xed\xa0\x80', 1],
    [`${long}\xe9 `, long.length + 1], [` ${long}\xe9`, long.length + 2]]) {
    const bytes = Uint8Array.from(line, (c) => c.charCodeAt(0));
    for (const way of ['lines', 'one']) {
      const [why] = new Blocks(wkt, { reading: { places: 18, dialect: '' } })[way](bytes, 1).refusals.whys;
      assert.deepEqual([why.column, why.hint], [at, `byte ${at} of the line is not UTF-8`], line.slice(0, 30));
    }
  }
});

test('refusals by their causes', () => {
  const lines = ['POINT(1', 'SRID=1;POINT(1 2)', 'POINT(1 2) x', 'POINT(1', 'POINT(0.1234 1)', 'POINT(0.12345 1)', 'POINT(\xff 1)', 'POINT(1 2)'];
  const bytes = Uint8Array.from(lines.join('\n'), (c) => c.charCodeAt(0));
  const { whys } = new Blocks(wkt, { reading: { places: 3, dialect: '' } }).lines(bytes, 100).refusals;
  assert.deepEqual(grouped(whys), [
    { cause: 'expected_y', n: 2, first: 1 }, { cause: 'places', n: 2, first: 5 }, { cause: 'srid', n: 1, first: 2 }, { cause: 'not_whole', n: 1, first: 3 },
    { cause: 'not_utf8', n: 1, first: 7 }]);
  assert.equal(sentenceOf('places', { places: 3, dialect: '' }), 'numbers have at most 3 places here');
  const none = { places: 18, dialect: '' };
  const all = { places: '%u', dialect: 'srid,untagged,exponents,nan' };
  assert.equal(sentenceOf('exponent', none), 'exponents are not read; write 0.0000001 for 1e-7; or choose “Exponents” under “Also read”');
  assert.equal(sentenceOf('not_utf8', none), 'the text is not UTF-8');
  assert.equal(sentenceOf('hint_99', none), 'hint_99');
  // Each cause of docs/names.tsv has its sentence from there.
  for (const [group, , name, text] of readFileSync(new URL('../../docs/names.tsv', import.meta.url), 'utf8').split('\n').map((row) => row.split('\t'))) {
    const word = name?.replace(/(?<=[a-z])(?=[A-Z])/g, '_').toLowerCase();
    if (group === 'hint' && text) assert.equal(sentenceOf(word, all), text);
    if (group === 'expected') assert.equal(sentenceOf(`expected_${word}`, all), `${text} was expected`);
  }
});

test('what lies at a place of the picture', () => {
  const shape = (canonical, id) => ({ row: { id }, canonical, summary: new Summary(canonical) });
  const shapes = [shape('POLYGON((0 0,10 0,10 10,0 10,0 0),(2 2,2 4,4 4,4 2,2 2))', 1), shape('POINT(20.500 1)', 2)];
  const at = (x, y) => (found(shapes, x, y, 0.5) ? describe(found(shapes, x, y, 0.5)) : null);
  const ring = { id: 1, what: 'ring', ring: 1, rings: 2, vertices: 5, length: 40 };
  assert.deepEqual(at(10.2, 9.9), { ...ring, digits: '10 10', vertex: 3 });
  assert.deepEqual(at(10.2, 5), { ...ring, vertex: null });
  assert.deepEqual(at(2, 3), { ...ring, what: 'hole', ring: 2, length: 8, vertex: null });
  assert.deepEqual(at(7, 7), { id: 1, points: 10 });
  assert.deepEqual(at(3, 3), null); // in the hole
  assert.deepEqual(at(20.4, 1.2), { id: 2, digits: '20.500 1' });
  assert.equal(lengthOf([0, 0, 3, 4, 3, 5], (i) => ['0 0', '3 4', '3 5'][i]), 6);
  let [place, seen] = [null, []];
  for (let i = 0; i < 11; i++) {
    place = stepped(shapes[0], place, 1);
    seen.push(describe(place).digits);
  }
  assert.deepEqual([seen[0], seen[1], seen[5], seen[10]], ['0 0', '10 0', '2 2', '0 0']);
});

// Lines of a file, and where they are refused: the column, 0 where a line is accepted, or null where it is blank.
const FILE = [['POINT(1 2) ', 0], ['POINT EMPTY (1)', 13], ['POINT EMPTY \r', 0], ['', null], ['POINT(1 2) 3', 12], ['POINT(1 2) POINT(3 4)', 12], ['MULTIPOINT(1 2, EMPTY)\t', 0],
  ['POINT(1', 8], ['POLYGON(EMPTY)', 0], ['POLYGON (EMPTY,(1 2)) x', 23], ['GEOMETRYCOLLECTION(POINT EMPTY) x', 33], ['polygon z empty', 0], ['POLYGON((0 0,1 1,1 0,0 0),(0 0,1 1,1 0,0 0))', 0]];
test('a line of a file is refused where more than white space follows its geometry', () => {
  const bytes = new TextEncoder().encode(FILE.map(([line]) => line).join('\n'));
  const { refusals, lines, blank } = new Blocks(wkt, { reading: { places: 18, dialect: '' } }).lines(bytes, 100);
  assert.deepEqual(refusals.whys.map(({ line, column }) => [line, column]), FILE.flatMap(([, column], i) => (column > 0 ? [[i + 1, column]] : [])));
  assert.deepEqual([lines, blank], [FILE.length, 1]);
});

test('lines of a file in dialects', () => {
  const lines = ['SRID=1;POINT(1 2 3)', 'POINT(nan nan)\r', '', 'POINT(1e3 2)', 'POINT(1 2)', 'MULTIPOINT(nan nan, 1 2) x', 'POINT(1 2) x', 'POINT(1e400 2)', 'POINT ZM(nan nan nan nan)'];
  const bytes = new TextEncoder().encode(lines.join('\n'));
  const of = (dialect) => {
    const { answers, kept, refusals, ...counts } = new Blocks(wkt, { reading: { places: 18, dialect } }).lines(bytes, 100);
    return { ...counts, answers: new TextDecoder().decode(answers).split('\n'), whys: refusals.whys.map(({ line, column, cause }) => [line, column, cause]), hints: refusals.whys.map(({ hint }) => hint) };
  };
  const all = of('srid,untagged,exponents,nan');
  assert.deepEqual(all.answers, ['POINT Z(1 2 3)', 'POINT EMPTY', 'refused', 'POINT(1000 2)', 'POINT(1 2)', 'refused', 'POINT(1 2)', 'refused', 'POINT ZM EMPTY', '']);
  assert.deepEqual(all.whys, [[6, 26, 'not_whole'], [7, 12, 'not_whole'], [8, 7, 'large']]);
  assert.deepEqual([all.lines, all.blank, all.words.length], [9, 1, 25]);
  const none = of('');
  assert.deepEqual(none.whys.map(([line, , cause]) => [line, cause]),
    [[1, 'srid'], [2, 'no_number'], [4, 'exponent'], [6, 'no_number'], [7, 'not_whole'], [8, 'exponent'], [9, 'no_number']]);
  assert.ok(none.hints[0].endsWith('; or choose “SRID=4326;” under “Also read”'), none.hints[0]);
  assert.deepEqual(of('srid,untagged').whys[0].slice(0, 2), [2, 7]);
});
