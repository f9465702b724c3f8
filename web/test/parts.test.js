// The parts of the page that need no browser: node --test web/test/parts.test.js
import assert from 'node:assert/strict';
import { readFileSync, readdirSync } from 'node:fs';
import { test } from 'node:test';
import { History, difference } from '../history.js';
import { lengthOf } from '../hit.js';
import { Range, compare } from '../range.js';
import { Repeats } from '../repeats.js';
import { changedPieces, piecesOf, splitOfFront } from '../split.js';
import { Summary } from '../summary.js';
import { Tally } from '../tally.js';

// A text; whether it looks like one geometry.
const SPLITS = [
  ['', true], ['POINT(1 2)', true], ['\n POINT(1 2) \n\n', true], ['POINT(1 2)\nPOINT(3 4)', false], ['POINT(1\n2)', true], ['POINT\n(1 2)', true], ['POINT\nZ (1 2 3)', true],
  ['POINT\nEMPTY', true], ['POINT EMPTY\nPOINT EMPTY', false], ['GEOMETRYCOLLECTION (\n  POINT(1 2),\n  POINT(3 4)\n)', true], ['POLYGON((0 0,1 1\nPOINT(1 2)', false],
  ['MULTIPOINT(1 2,\nEMPTY)', true], ['FOO\nPOINT(1 2)', false], ['POINT(1 2))\n(3 4)', false], [`POINT(${' '.repeat(1e6)}1\n2)`, true],
];
test('one geometry over lines, or one on each line', () => {
  for (const text of ['MULTIPOINT(1 2,\nnan nan)', 'SRID=4326;LINESTRING(\n1e1 2,\n3 4)']) assert.equal(piecesOf(text, 'auto').length, 1, text);
  for (const [text, one] of SPLITS) assert.equal(piecesOf(text, 'auto').length < 2, one, text.slice(0, 60));
});

// A text; its pieces, and the lines where they begin.
const PIECES = [
  ['POLYGON((0 0,\n1 1,2 0,0 0))\n\nPOINT(1 2)\nLINESTRING(0 0,\n\n3 4)\n', ['POLYGON((0 0,\n1 1,2 0,0 0))', 'POINT(1 2)', 'LINESTRING(0 0,\n\n3 4)'], [1, 4, 5]],
  ['GEOMETRYCOLLECTION(\nPOINT(1 2),\nPOINT(3 4))\nPOINT\nEMPTY\nPOINT(1 2', ['GEOMETRYCOLLECTION(\nPOINT(1 2),\nPOINT(3 4))', 'POINT\nEMPTY', 'POINT(1 2'], [1, 4, 6]],
  ['POINT(1 2\nPOINT(3 4)\nfoo\nPOINT(5\n6)', ['POINT(1 2', 'POINT(3 4)', 'foo', 'POINT(5\n6)'], [1, 2, 3, 4]],
  ['LINESTRING(1 2,\nSRID=4326;POINT(1 2)', ['LINESTRING(1 2,', 'SRID=4326;POINT(1 2)'], [1, 2]],
];
test('a geometry ends where its parentheses close', () => {
  for (const [text, texts, lines] of PIECES) {
    const found = piecesOf(text, 'auto');
    assert.deepEqual([found.map((piece) => piece.text), found.map(({ line }) => line)], [texts, lines]);
    for (const piece of found) assert.ok(text.startsWith(piece.text, piece.offset));
  }
  assert.deepEqual(piecesOf('POINT(1\n2)', 'lines').map(({ text }) => text), ['POINT(1', '2)']);
});

test('a line is blank where it has white space of the grammar alone', () => {
  for (const split of ['auto', 'lines', 'one']) assert.deepEqual(piecesOf(' \n\t\r\n', split), []);
  for (const mark of ['\u00a0', '\ufeff', '\u2028', '\x01', '\f']) {
    for (const split of ['auto', 'lines']) assert.equal(piecesOf(`POINT(1 2)\n \n${mark}\nPOINT(3 4)`, split).length, 3, JSON.stringify(mark));
    assert.equal(piecesOf(mark, 'auto').length, 1);
  }
});

/** What the page has of a text after a change: the pieces that it had, but for those of the change. */
function changed(before, old, text, split) {
  const { front, back, pieces, moved, lines } = changedPieces(before, old, text, split);
  const rest = old.slice(old.length - back).map((it) => ({ text: it.text, offset: it.offset + moved, line: it.line + lines }));
  return { rows: [...old.slice(0, front), ...pieces, ...rest], kept: front + back };
}

const TYPED = ['POINT(1 2)', 'LINESTRING(0 0,\n1 1)', 'POLYGON((0 0,', '1 1,1 0,0 0))', 'POINT', 'EMPTY', '\n', '\n', '(', ')', ' ', '7', 'GEOMETRYCOLLECTION(\n', 'x'];
test('the pieces of a changed text are those of the text', () => {
  let seed = 1;
  const some = (n) => (seed = (seed * 48271) % 2147483647) % n;
  let kept = 0;
  for (const split of ['auto', 'lines', 'one']) {
    let [text, rows] = ['', []];
    for (let i = 0; i < 3000; i++) {
      const [from, cut] = [some(text.length + 1), some(4) === 0 ? some(text.length > 500 ? 200 : 9) : 0];
      const next = text.slice(0, from) + (cut ? '' : TYPED[some(TYPED.length)]) + text.slice(from + cut);
      const made = changed(text, rows, next, split);
      assert.deepEqual(made.rows, piecesOf(next, split), JSON.stringify([text, next]));
      [text, rows] = [next, made.rows];
      kept += made.kept;
    }
  }
  assert.ok(kept > 10000, `${kept} kept`);
  const many = Array.from({ length: 1000 }, (_, i) => `POINT(${i} 2)`).join('\n');
  const { front, back, pieces } = changedPieces(many, piecesOf(many, 'auto'), many.replace('500 2', '500.5 2'), 'auto');
  assert.deepEqual([front, pieces.length, back], [500, 1, 499]);
});

test('how a file is split, by its front', () => {
  for (const [front, cut, split] of [['GEOMETRYCOLLECTION(POINT(1 2),', true, 'lines'], ['LINESTRING(1 2,3', true, 'lines'], ['LINESTRING(1 2,\n3', true, 'one'],
    ['POINT(1 2)\nPOINT(3', true, 'lines'], ['POLYGON((0 0,\n1 1,0 0))\nPOLYGON((0', true, 'pieces'], ['POINT(1\n2)', false, 'one'], ['', false, 'one']]) {
    assert.equal(splitOfFront(front, cut), split, front);
  }
});

const bytesOf = (text) => new TextEncoder().encode(text);

test('numbers are compared exactly', () => {
  const ordered = ['-10', '-9.5', '-0.100000000000000001', '-0.1', '0', '0.1', '0.100000000000000001', '9', '10', '10.25', '170000000000000000001'];
  ordered.forEach((a, i) => ordered.forEach((b, k) => assert.equal(Math.sign(compare(a, b)), Math.sign(i - k), `${a} ${b}`)));
});

test('a range keeps the digits, also where two numbers have one double', () => {
  const range = new Range();
  for (const text of ['0.100000000000000001', '0.1', '0.100000000000000002']) range.add(Number(text), text);
  assert.deepEqual([range.lowText, range.highText], ['0.1', '0.100000000000000002']);
});

// Text; kind, dimension, points, rings, polygons, holes, members, levels, empty, open, short.
const SUMMARIES = [
  ['POINT(1 2)', 'Point', 'XY', 1, 0, 0, 0, 0, 0, 0, 0, 0],
  ['POINT EMPTY', 'Point', 'XY', 0, 0, 0, 0, 0, 0, 1, 0, 0],
  ['POINT ZM EMPTY', 'Point', 'XYZM', 0, 0, 0, 0, 0, 0, 1, 0, 0],
  ['LINESTRING M(1 2 3,4 5 6)', 'LineString', 'XYM', 2, 1, 0, 0, 0, 0, 0, 0, 0],
  ['LINESTRING(1 2)', 'LineString', 'XY', 1, 1, 0, 0, 0, 0, 0, 0, 1],
  ['POLYGON((0 0,1 0,1 1,0 0),(0 0,1 1,0 0))', 'Polygon', 'XY', 7, 2, 1, 1, 0, 0, 0, 0, 1],
  ['POLYGON((0 0,1 0,1 1))', 'Polygon', 'XY', 3, 1, 1, 0, 0, 0, 0, 1, 0],
  ['MULTIPOINT((1 2),EMPTY)', 'MultiPoint', 'XY', 1, 0, 0, 0, 0, 0, 1, 0, 0],
  ['MULTIPOLYGON(((0 0,1 0,1 1,0 0)),EMPTY,((0 0,1 0,1 1,0 0),(0 0,1 0,1 1,0 0)))', 'MultiPolygon', 'XY', 12, 3, 2, 1, 0, 0, 1, 0, 0],
  ['GEOMETRYCOLLECTION(POINT(1 2),GEOMETRYCOLLECTION(POINT Z EMPTY,LINESTRING(1 2,3 4)),POINT(5 6))', 'GeometryCollection', 'XY', 4, 1, 0, 0, 5, 2, 1, 0, 0],
];
test('counts of one text', () => {
  for (const [text, ...wanted] of SUMMARIES) {
    const s = new Summary(text);
    assert.deepEqual([s.kind, s.dimension, s.points, s.rings, s.polygons, s.holes, s.members, s.levels, s.empty, s.open, s.short], wanted, text);
  }
});

test('a length has the digits of its numbers, also where doubles don’t', () => {
  for (const [points, wanted] of [['0 0,3 4,3 5', 6], ['12345678901234567890 1,12345678901234569999 1', 2109], ['-0.1 7,-0.100000000000000002 7', 2e-18],
    ['12345678901234567890.5 -1,12345678901234567890.5 2', 3]]) {
    const digits = points.split(',');
    const length = lengthOf(digits.flatMap((it) => it.split(' ').map(Number)), (i) => digits[i]);
    assert.ok(Math.abs(length - wanted) <= 1e-9 * wanted, `${points}: ${length}`);
  }
});

test('each point of one text, with its place', () => {
  const text = 'GEOMETRYCOLLECTION(POINT(1 2),MULTILINESTRING((3 4,5.5 -6),(7 8,9 10)))';
  const found = new Summary(text).leaves.flatMap(({ rings, places }) => rings.flatMap((xy, r) => places[r].map((at, i) => [xy[2 * i], xy[2 * i + 1], text.slice(at).match(/^[^,)]*/)[0]])));
  assert.deepEqual(found, [[1, 2, '1 2'], [3, 4, '3 4'], [5.5, -6, '5.5 -6'], [7, 8, '7 8'], [9, 10, '9 10']]);
});

function tallied(lines) {
  const tally = new Tally();
  for (const line of lines) assert.equal(tally.add(bytesOf(`${line}\n`), 0), line.length);
  return tally;
}

const texts = ({ lowText, highText }) => [lowText, highText];

test('counts of many texts', () => {
  const tally = tallied(['POINT(1 2)', 'LINESTRING Z(0.5 -0.25 100,1 1 -7)', 'POLYGON M((0 0 5,1 0 6,1 1 7,0 0 5))', 'MULTIPOINT((1 2))',
    'MULTILINESTRING((1 2,3 4))', 'MULTIPOLYGON(((0 0,1 0,1 1,0 0)))', 'GEOMETRYCOLLECTION ZM(POINT ZM(1 2 3 -4))', 'POINT EMPTY',
    'GEOMETRYCOLLECTION(POINT M(1 2 6),POINT Z(1 2 101))']);
  assert.deepEqual(tally.kinds, { Point: 2, LineString: 1, Polygon: 1, MultiPoint: 1, MultiLineString: 1, MultiPolygon: 1, GeometryCollection: 2 });
  assert.equal(tally.points, 17);
  assert.deepEqual(tally.ranges.map(texts), [['0', '3'], ['-0.25', '4'], ['-7', '101'], ['-4', '7']]);
  assert.deepEqual(tally.sample.slice(0, 6), [1, 2, 0.5, -0.25, 1, 1]);
});

test('bounds of many texts have all digits', () => {
  const tally = tallied(['POINT(0.100000000000000001 123456789012345678.5)', 'POINT(0.1 123456789012345678.25)', 'POINT(0.100000000000000002 123456789012345678)']);
  assert.deepEqual(tally.ranges.slice(0, 2).map(texts), [['0.1', '0.100000000000000002'], ['123456789012345678', '123456789012345678.5']]);
});

/** Repeats of lines, whose hashes and settings are given, beside what comparing all of them says. */
function check(lines, hash, settings, every = 7) {
  const all = bytesOf(lines.map((line) => `${line}\n`).join(''));
  let reads = 0;
  const repeats = new Repeats((at) => {
    reads++;
    return all.subarray(at, all.indexOf(10, at) + 1);
  }, { shown: 1e9, ...settings });
  for (let i = 0, place = 0; i < lines.length; i += every) {
    const some = lines.slice(i, i + every);
    let at = 0;
    const words = some.flatMap((line, k) => {
      at += line.length + 1;
      return [...hash(line), at - line.length - 1, at - line.length - 1, k + 1];
    });
    repeats.add(Int32Array.from(words), all.slice(place, place + at), i, place);
    place += at;
  }
  repeats.find();
  const earlier = new Map();
  const wanted = [];
  lines.forEach((line, i) => {
    if (earlier.has(line)) wanted.push([i + 1, earlier.get(line)]);
    else earlier.set(line, i + 1);
  });
  return { repeats, reads, wanted };
}

const random = (n, kinds) => Array.from({ length: n }, () => `POINT(${Math.floor(Math.random() * kinds)} 2)`);
const good = (line) => {
  let [low, high] = [7, 9];
  for (const c of bytesOf(line)) {
    low = Math.imul(low ^ c, 0x01000193) & 0x3fffffff;
    high = Math.imul(high + c, 0x85ebca6b) & 0x3fffffff;
  }
  return [low, high];
};

for (const [name, settings] of [['in memory', {}], ['in the file', { memory: 0 }], ['in the file, some at a time', { memory: 0, far: 1000 }]]) {
  test(`repeats by texts ${name}`, () => {
    const lines = random(20000, 9000);
    const { repeats, reads, wanted } = check(lines, good, settings);
    assert.deepEqual(repeats.first, wanted);
    assert.equal(repeats.count, wanted.length);
    assert.equal(reads, settings.memory === 0 ? 2 * wanted.length : 0);
    assert.equal(repeats.full, false);
  });
  test(`texts with one hash are told apart, by texts ${name}`, () => {
    for (const hash of [() => [5, 5], (line) => [line.length, 1], (line) => [2 ** 30 - 1, line.charCodeAt(6)]]) {
      const { repeats, wanted } = check(random(600, 150), hash, settings);
      assert.deepEqual(repeats.first, wanted);
    }
  });
  test(`many texts with few hashes are told apart, by texts ${name}`, () => {
    const { repeats, wanted } = check(random(10000, 6000), (line) => [(parseInt(line.slice(6), 10) % 40) * 100, 1], settings);
    assert.deepEqual(repeats.first, wanted);
  });
}

test('where more lines come than fit, it says so, and finds the repeats of those before', () => {
  const lines = [...Array.from({ length: 500 }, (_, i) => `POINT(${i % 450} 1)`), 'POINT(0 1)', 'POINT(1 1)'];
  const { repeats, wanted } = check(lines, good, { most: 497 });
  assert.equal(repeats.full, true);
  assert.equal(repeats.entered, 497); // 71 blocks of seven
  assert.deepEqual(repeats.first, wanted.filter(([line]) => line <= 497));
});

test('the first repeats are listed, by their lines', () => {
  const { repeats, wanted } = check(random(3000, 100), good, { memory: 0, shown: 10 });
  assert.deepEqual(repeats.first, wanted.slice(0, 10));
  assert.equal(repeats.count, wanted.length);
});

/** A text that is changed to others, by kinds and at times; and what is there after each step back, and forth. */
function steps(texts) {
  const history = new History();
  const put = (text, at, length, words) => text.slice(0, at) + words + text.slice(at + length);
  let text = texts[0][0];
  for (const [next, kind, when] of texts.slice(1)) {
    history.add({ ...difference(text, next), kind, when });
    text = next;
  }
  const [back, forth] = [[], []];
  for (let change; (change = history.undone()); back.push(text)) text = put(text, change.at, change.added.length, change.removed);
  for (let change; (change = history.redone()); forth.push(text)) text = put(text, change.at, change.removed.length, change.added);
  return [back, forth];
}
// The texts with kinds and times; those to which one comes back.
const UNDONE = [
  [[['a'], ['ab', 'typed', 0], ['abc', 'typed', 900], ['abcd', 'typed', 2000]], ['abc', 'a']], // not after a pause
  [[['a'], ['ab', 'typed', 0], ['ab\n', 'typed', 1], ['ab\nc', 'typed', 2]], ['ab', 'a']], // a line is a step
  [[['a c'], ['ab c', 'typed', 0], ['ab cd', 'typed', 1]], ['ab c', 'a c']], // nor elsewhere
  [[['abcd'], ['abc', 'erased', 0], ['ab', 'erased', 1], ['b', 'erased', 2]], ['ab', 'abcd']],
  [[['abcd'], ['acd', 'erased', 0], ['ad', 'erased', 1], ['d', 'erased', 2]], ['abcd']], // both ways
  [[['x'], ['xn', 'typed', 0], ['xに', 'typed', 1], ['xにほ', 'typed', 2], ['x日本', 'typed', 3]], ['x']], // composed
  [[['a'], ['ab', 'typed', 0], ['a', 'erased', 1], ['', '', 2], ['b', '', 3]], ['', 'a', 'ab', 'a']],
];
test('what was changed is undone by steps, and done again', () => {
  for (const [texts, wanted] of UNDONE) {
    const [back, forth] = steps(texts);
    assert.deepEqual(back, wanted);
    assert.deepEqual(forth, [...wanted.slice(0, -1).reverse(), texts.at(-1)[0]]);
  }
});

// What the scripts of the page use, and since which Chrome that is there, by the tables of MDN.
const SINCE = [
  [/DecompressionStream/, 80], [/this\.#\w+\(/, 84], [/\?\?=|\|\|=|&&=/, 85], [/\.replaceAll\(/, 85], [/\.at\(/, 92], [/Object\.hasOwn/, 93], [/static \{/, 94],
  [/\.findLast/, 97], [/structuredClone/, 98], [/deflate-raw/, 103], [/\.to(Sorted|Reversed|Spliced)\(/, 110], [/isWellFormed|Object\.groupBy/, 117],
];
test('the page names the oldest browser that has what it uses', () => {
  const folders = ['../', '../../javascript/src/'].map((name) => new URL(name, import.meta.url));
  const files = folders.flatMap((folder) => readdirSync(folder).filter((name) => name.endsWith('.js')).map((name) => readFileSync(new URL(name, folder), 'utf8')));
  const oldest = Math.max(...SINCE.filter(([form]) => files.some((text) => form.test(text))).map(([, version]) => version));
  const named = files.flatMap((text) => [...text.matchAll(/Chrome (\d+)/g)].map(([, version]) => Number(version)));
  assert.deepEqual(named, [oldest, oldest]);
});
