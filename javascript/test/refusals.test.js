// Refused texts: which message each has, at which place, and how that is shown.
import test from 'node:test';
import assert from 'node:assert/strict';
import { WktError, STATUS } from '../src/node.js';
import { MESSAGES } from '../src/names.js';
import { bytes, rowsOf, thrown, wkt } from './support.js';

test('the message of each refused text of the table', () => {
  let refused = 0;
  for (const [text, answer] of rowsOf('crates/wkt_tables/stdin')) {
    const message = MESSAGES.indexOf(answer);
    if (message < 0) {
      assert.equal(wkt.canonical(text, { whole: false }), answer, text);
      continue;
    }
    refused++;
    const error = thrown(() => wkt.canonical(text));
    assert.deepEqual([error.status, error.words, error.message], [message, answer, error.place.cause], text);
    const why = wkt.explain(text);
    assert.deepEqual(why, error.place);
    assert.deepEqual(wkt.explain(text, { whole: false }), why);
    // What stands before the place is no fault: of a text that ends there nothing before it is refused.
    const cut = wkt.explain(text.slice(0, why.start), { whole: false });
    assert.ok(cut === null || cut.start >= why.start - 1, text);
    assert.equal(wkt.explain(bytes(text)).start, bytes(text.slice(0, why.start)).length);
  }
  assert.equal(refused, 4254);
});

// A text, and what its error says. Columns: text, options, place in the text, message, caret, code (docs/FILES.md).
const WORDS = [
  ['POINT(1)', {}, [7, 8], 'at 8: a second number was expected, and not )', 'POINT(1)\n       ^', 'expected_y'],
  ['POINT(1 2', {}, [9, 9], 'at 10: `)` was expected, but the text ends', 'POINT(1 2\n         ^', 'expected_closing'],
  ['', {}, [0, 0], 'at 1: a kind of geometry, such as POINT, was expected, but the text ends', '\n^', 'expected_kind'],
  ['\nPOINT\t(x 2)', {}, [8, 9], 'at line 2, column 8: a first number was expected, and not x', 'POINT\t(x 2)\n     \t ^', 'expected_x'],
  ['POINT(1.1234567 2)', { places: 6 }, [6, 15], 'at 7: 1.1234567 has 7 places, at most 6 are allowed', 'POINT(1.1234567 2)\n      ^^^^^^^^^', 'places'],
  ['POINT(1 2 3)', {}, [10, 11], 'at 11: a third number needs Z or M, as in POINT Z(1 2 3), and a fourth ZM', 'POINT(1 2 3)\n          ^', 'dimension'],
  ['SRID=4326;POINT(1 2)', {}, [0, 15], 'at 1: SRID=..; of EWKT is not read; ST_AsText leaves it out', 'SRID=4326;POINT(1 2)\n^^^^^^^^^^^^^^^', 'srid'],
  ['POINT()', {}, [6, 7], 'at 7: what holds nothing is written EMPTY, without parentheses', 'POINT()\n      ^', 'empty'],
  ['POINT(180 90)', { places: 36 }, [6, 9], 'at 7: with 18 places the number is read', 'POINT(180 90)\n      ^^^', 'fewer'],
  ['POINT(1,2)', {}, [7, 8], 'at 8: commas separate coordinates, and spaces their numbers; decimals have a point', 'POINT(1,2)\n       ^', 'comma'],
  ['null', {}, [0, 4], 'at 1: NULL, None and nan are not read; leave the row out, or write POINT EMPTY', 'null\n^^^^', 'missing'],
  ['\ufeffPOINT(1 2)', {}, [0, 6], 'at 1: the text begins with a byte order mark', '\\u{feff}POINT(1 2)\n^^^^^^^^^^^^^', 'byte_order_mark'],
  ['POINT(1 2) and more', {}, [11, 19], 'at 12: the end of the text was expected, and not and more', 'POINT(1 2) and more\n           ^^^^^^^^', 'not_whole'],
  ['POINT(1 2)\n\nPOINT(3 4)', {}, [12, 22], 'at line 3, column 1: the end of the text was expected, and not POINT(3 4)', 'POINT(3 4)\n^^^^^^^^^^', 'not_whole'],
];

test('what an error says', () => {
  for (const [text, options, [start, stop], message, caret, code] of WORDS) {
    const error = thrown(() => wkt.canonical(text, options));
    assert.ok(error instanceof WktError && error instanceof Error && error.name === 'WktError');
    assert.deepEqual([error.place.start, error.place.stop, error.message, error.caret, error.place.code], [start, stop, message, caret, code]);
    assert.equal(error.hint, error.place.hint);
    assert.equal(String(error), `WktError: ${message}`);
    assert.deepEqual(structuredClone(error.place), error.place);
    for (const call of ['arrays', 'toGeoJSON', 'canonicalBytes']) assert.equal(thrown(() => wkt[call](text, options)).message, message, call);
    for (const two of [[text, 'POINT(1 2)'], ['POINT(1 2)', text]]) assert.equal(thrown(() => wkt.same(...two, options)).message, message);
    assert.equal(wkt.reads(text, options), false);
  }
});

// What a stranger may write, and how it is shown.
const HIDDEN = [
  ['\x01', '\\x01'], ['\x1b', '\\x1b'], ['\x07', '\\x07'], ['\x7f', '\\x7f'], ['\x80', '\\u{80}'], ['\x9b', '\\u{9b}'], ['\u200b', '\\u{200b}'], ['\u200f', '\\u{200f}'],
  ['\u2028', '\\u{2028}'], ['\u2029', '\\u{2029}'], ['\u202e', '\\u{202e}'], ['\u2066', '\\u{2066}'], ['\u2069', '\\u{2069}'], ['\ufeff', '\\u{feff}'], ['\u{e0041}', '\\u{e0041}'],
  ['\u1680', '\\u{1680}'], ['\u3164', '\\u{3164}'], ['\ufe0f', '\\u{fe0f}'], ['\u{e0100}', '\\u{e0100}'],
];

test('what is not printable is shown by its number', () => {
  for (const [character, shown] of HIDDEN) {
    for (const text of [`POINT(${character}a 2)`, bytes(`POINT(${character}a 2)`)]) {
      const { message, caret, place } = thrown(() => wkt.canonical(text));
      assert.deepEqual([message, place.cause], Array(2).fill(`at 7: a first number was expected, and not ${shown}a`));
      assert.equal(caret, `POINT(${shown}a 2)\n      ${'^'.repeat(shown.length + 1)}`);
    }
    assert.equal(wkt.explain(`POINT(1 2) ${character}x`).caret, `POINT(1 2) ${shown}x\n           ${'^'.repeat(shown.length + 1)}`);
    assert.equal(wkt.explain(`${character}\tPOINT(1 2)\n)`)?.caret.split('\n')[0], `${shown}\tPOINT(1 2)`);
    assert.equal(thrown(() => wkt.fromGeoJSON(`[${character}`)).message, `JSON: unexpected ${shown} at 1`);
  }
  assert.equal(thrown(() => wkt.canonical('POINT(\ud800 2)')).message, 'at 7: a lone surrogate is half of a character');
  assert.equal(thrown(() => wkt.canonical('POINT(\ud800 2)')).caret, 'POINT(\\u{d800} 2)\n      ^^^^^^^^');
  // What is seen stays as it is.
  assert.equal(wkt.explain('POINT(é€𝄞ع 2)').caret, 'POINT(é€𝄞ع 2)\n      ^^^^');
  // A carriage return before a line feed is no part of the line.
  assert.equal(wkt.explain('POINT(x 2)\r\n').caret, 'POINT(x 2)\n      ^');
});

test('an error that a worker posts keeps status and place', async () => {
  for (const call of [() => wkt.canonical('POINT(1)'), () => wkt.canonical('POINT(1 2)', { places: 37 }), () => wkt.infer('FOO(')]) {
    const error = thrown(call);
    const { port1, port2 } = new MessageChannel();
    const came = new Promise((done) => { port2.onmessage = ({ data }) => done(data); });
    port1.postMessage({ error, spread: { ...error } });
    const { data } = { data: await came };
    port1.close();
    for (const posted of [data.spread, ...(data.error.cause ? [data.error] : [])]) {
      const again = WktError.from(posted);
      assert.ok(again instanceof WktError);
      for (const name of ['status', 'words', 'place', 'message', 'hint', 'caret', 'name']) assert.deepEqual(again[name], error[name], name);
    }
    if (!process.version.startsWith('v18.')) assert.ok(data.error.cause, 'Node 18 posts no cause');
  }
  assert.throws(() => WktError.from(new Error('another')), TypeError);
});

test('only white space may follow, unless anything may', () => {
  assert.equal(wkt.canonical('POINT(1 2) \r\n\t'), 'POINT(1 2)');
  assert.equal(thrown(() => wkt.canonical('POINT(1 2) \0')).status, STATUS.NOT_WHOLE);
  assert.equal(wkt.canonical('POINT(1 2) and more', { whole: false }), 'POINT(1 2)');
  assert.equal(wkt.explain('POINT(1 2) and more', { whole: false }), null);
  assert.ok(wkt.same('POINT(1 2) and more', 'POINT(1 2)', { whole: false }));
  assert.equal(wkt.arrays('POINT(1 2),', { whole: false }).end, 10);
  assert.deepEqual(wkt.front('POINT(1 2) é'), { canonical: 'POINT(1 2)', end: 10 });
});

test('places count units of a string and bytes of bytes; columns count characters', () => {
  const text = 'GEOMETRYCOLLECTION(POINT(1 2),\n  POINT(𝄞 é))';
  const why = wkt.explain(text);
  assert.deepEqual([why.start, why.stop, why.line, why.column], [39, 41, 2, 9]);
  assert.equal(why.caret, '  POINT(𝄞 é))\n        ^');
  assert.equal(text.slice(why.start, why.stop), '𝄞');
  const behind = wkt.explain('POINT(1 2) é𝄞 é𝄞');
  assert.deepEqual([behind.start, behind.stop, behind.column], [11, 18, 12]);
  const raw = wkt.explain(bytes('POINT(1 2) é𝄞 é'));
  assert.deepEqual([raw.start, raw.stop, raw.column, raw.caret], [11, 20, 12, 'POINT(1 2) é𝄞 é\n           ^^^^']);
});

test('a long line is cut to what is around the place', () => {
  const far = wkt.explain(`LINESTRING(${'1 2,'.repeat(1000)}x)${' '.repeat(100)}`);
  assert.equal(far.caret, `...${'1 2,'.repeat(9)}x)${' '.repeat(34)}\n${' '.repeat(39)}^`);
  const near = wkt.explain(`POINT(x${' '.repeat(100)}`);
  assert.equal(near.caret, `POINT(x${' '.repeat(65)}\n      ^`);
  const pairs = wkt.explain(`${'𝄞'.repeat(50)} ${'𝄞'.repeat(100)}`);
  assert.equal(pairs.caret, `${'𝄞'.repeat(50)} ${'𝄞'.repeat(21)}\n${'^'.repeat(50)}`);
  assert.equal(wkt.explain(`POINT(${'9'.repeat(60)}x 1)`).cause, `at 7: a first number was expected, and not ${'9'.repeat(37)}...`);
});

test('what is no text', () => {
  for (const text of ['\ud800', 'POINT(1 2) \udc00', 'POINT(1 2) \udc00\ud800', `${'x'.repeat(100)}\ud800`, '𝄞\ud834']) {
    const at = [...text].findIndex((character) => character >= '\ud800' && character < '\ue000' && character.length === 1);
    for (const call of ['canonical', 'canonicalBytes', 'front', 'explain', 'infer', 'arrays', 'lines', 'toGeoJSON']) {
      const error = thrown(() => wkt[call](text));
      assert.equal(error.status, STATUS.NOT_UTF8, call);
      assert.equal(error.place.column, at + 1, call);
      assert.equal(error.place.stop, error.place.start + 1);
      assert.equal(error.hint, 'a lone surrogate is half of a character');
    }
    assert.equal(thrown(() => wkt.same('POINT(1 2)', text)).status, STATUS.NOT_UTF8);
    assert.equal(wkt.reads(text), false);
    assert.deepEqual(wkt.columns([text]), { texts: [null], statuses: Uint8Array.of(STATUS.NOT_UTF8) });
  }
  assert.equal(wkt.canonical('POINT(1 2) \ufffd𝄞', { whole: false }), 'POINT(1 2)');
  const raw = thrown(() => wkt.canonical(Uint8Array.of(80, 0xff)));
  assert.deepEqual([raw.status, raw.place, raw.message, raw.caret, raw.hint], [STATUS.NOT_UTF8, null, 'The text is not UTF-8', '', '']);
  assert.equal(thrown(() => wkt.explain(Uint8Array.of(80, 0xed, 0xa0, 0x80))).status, STATUS.NOT_UTF8);
});

test('arguments', () => {
  for (const text of [7, null, undefined, ['POINT(1 2)'], new ArrayBuffer(3), {}]) {
    for (const call of ['canonical', 'explain', 'infer', 'arrays', 'lines', 'front', 'reads']) assert.throws(() => wkt[call](text), TypeError, call);
  }
  for (const places of [1.5, '6', NaN, null, 6n]) assert.throws(() => wkt.canonical('POINT(1 2)', { places }), TypeError);
  assert.throws(() => wkt.canonical('POINT(1 2)', { whole: 1 }), TypeError);
  for (const places of [-1, 37, 256]) assert.equal(thrown(() => wkt.canonical('POINT(1 2)', { places })).status, STATUS.NO_PLACES);
  assert.equal(wkt.canonical(Buffer.from('xPOINT(1 2)').subarray(1)), 'POINT(1 2)');
});

test('options that a call has not', () => {
  const calls = [['canonical'], ['canonicalBytes'], ['front'], ['reads'], ['explain'], ['arrays'], ['readEvents'], ['lines'], ['toGeoJSON'], ['toGeoJSONObject'], ['same', 'POINT(1 2)']];
  for (const [call, ...more] of calls) {
    for (const asked of [6, '6', true, null, { place: 6 }, { places: 6, Whole: true }, [6]]) assert.throws(() => wkt[call]('POINT(1 2)', ...more, asked), TypeError, call);
  }
  for (const asked of [6, { whole: true }]) assert.throws(() => wkt.fromGeoJSON('{"type":"Point","coordinates":[1,2]}', asked), TypeError);
  for (const asked of [6, { m: 'drop' }]) assert.throws(() => wkt.columns(['POINT(1 2)'], asked), TypeError);
  for (const asked of [6, { whole: true }]) assert.throws(() => wkt.lineStream(asked), TypeError);
  assert.throws(() => wkt.canonical('POINT(1 2)', { '\x1b[2J': 1 }), { message: 'no option \\x1b[2J: there are places, whole, dialect' });
  assert.equal(wkt.canonical('POINT(1 2.0)', Object.create({ places: 1, other: 2 })), 'POINT(1 2)');
});

test('of two texts the first that is refused as the status says, and nothing of the other', () => {
  const texts = ['POINT(x 2)', 'POINT(1 2) more', 'POINT(1', 'LINESTRING(1 2,3 x)', 'FOO', 'POINT(1e5 2)', ''];
  for (const one of texts) {
    const mine = thrown(() => wkt.canonical(one));
    for (const other of [...texts, 'POINT(1 2)']) {
      // A text that begins with no geometry comes before one that has more behind it.
      const theirs = other === 'POINT(1 2)' ? mine : thrown(() => wkt.canonical(other));
      const { status, words, message, place } = mine.status === 30 && theirs.status < 30 ? theirs : mine;
      const error = thrown(() => wkt.same(one, other));
      assert.deepEqual([error.status, error.words, error.message, error.place], [status, words, message, place], `${one} ${other}`);
    }
    assert.deepEqual(thrown(() => wkt.same('POINT(1 2)', one)).cause, { status: mine.status, words: mine.words, place: mine.place });
  }
});

test('what a class of bytes says of itself means nothing', () => {
  const lying = (length) => class extends Uint8Array {
    get length() { return length; }
    get byteLength() { return length; }
    get byteOffset() { return 0; }
    get buffer() { return new ArrayBuffer(100); }
    get [Symbol.toStringTag]() { return 'Float64Array'; }
    subarray() { return this; }
    slice() { return this; }
    indexOf() { return 3; }
    lastIndexOf() { return 3; }
  };
  for (const length of [0, 3, 90, 2 ** 40, NaN]) {
    const Bytes = lying(length);
    const of = (text) => Bytes.from(Buffer.from(text));
    wkt.canonical(`POINT(1 2) ${'what another wrote '.repeat(50)}`, { whole: false });
    assert.deepEqual(wkt.explain(of('POINT(x 2)')), wkt.explain(bytes('POINT(x 2)')));
    assert.equal(wkt.canonical(of('point ( 1 2.0 )')), 'POINT(1 2)');
    assert.ok(wkt.same(of('point ( 1 2.0 )'), 'POINT(1 2)'));
    assert.deepEqual(wkt.lines(of('POINT(1 2)\nno\nPOINT(3 4)')), bytes('POINT(1 2)\nrefused\nPOINT(3 4)\n'));
  }
  const text = bytes('point ( 1 2.0 )');
  for (const call of ['canonical', 'explain', 'lines']) assert.throws(() => wkt[call](new Proxy(text, {})), TypeError);
});

test('bytes in memory that is shared, or that changes its size', () => {
  const shared = new Uint8Array(new SharedArrayBuffer(15));
  shared.set(bytes('point ( 1 2.0 )'));
  assert.equal(wkt.canonical(shared), 'POINT(1 2)');
  assert.equal(wkt.explain(shared.subarray(1)).start, 0);
  assert.deepEqual(wkt.lines(shared), bytes('POINT(1 2)\n'));
  if (!('resizable' in ArrayBuffer.prototype)) return; // before Node 20
  const buffer = new ArrayBuffer(15, { maxByteLength: 30 });
  const [all, end] = [new Uint8Array(buffer), new Uint8Array(buffer, 10, 5)];
  all.set(bytes('point ( 1 2.0 )'));
  assert.equal(wkt.canonical(all), 'POINT(1 2)');
  buffer.resize(30);
  assert.equal(wkt.canonical(all, { whole: false }), 'POINT(1 2)');
  buffer.resize(9);
  assert.equal(wkt.explain(all).stop, 9);
  for (const call of ['canonical', 'explain', 'lines', 'reads']) assert.throws(() => wkt[call](end), TypeError, call);
});

test('a detached buffer is no empty text', () => {
  const data = bytes('POINT(1 2)\n');
  structuredClone(data.buffer, { transfer: [data.buffer] });
  for (const call of ['canonical', 'canonicalBytes', 'front', 'explain', 'infer', 'arrays', 'lines', 'reads', 'toGeoJSON']) {
    assert.throws(() => wkt[call](data), { name: 'TypeError', message: 'the buffer of the bytes is detached' }, call);
  }
  assert.throws(() => wkt.same('POINT(1 2)', data), TypeError);
  assert.throws(() => wkt.columns(['POINT(1 2)', data]), TypeError);
  assert.equal(wkt.lines(new Uint8Array(0)).length, 0);
  assert.equal(wkt.reads(new Uint8Array(0)), false);
});

test('columns', () => {
  const { texts, statuses } = wkt.columns(new Set(['point(1 2)', null, 'POINT(3', undefined, bytes('POINT(4 5)'), 'POINT(1 2) x']));
  assert.deepEqual(texts, ['POINT(1 2)', null, null, null, 'POINT(4 5)', null]);
  assert.deepEqual([...statuses], [STATUS.OK, STATUS.NULL, 7, STATUS.NULL, STATUS.OK, STATUS.NOT_WHOLE]);
  for (const texts of [[7], 'POINT(1 2)', 'POINT(1 2)\nPOINT(3 4)', '', bytes('POINT(1 2)'), new Uint8Array(0)]) assert.throws(() => wkt.columns(texts), TypeError);
  assert.deepEqual(wkt.columns([]), { texts: [], statuses: new Uint8Array(0) });
});

test('infer', () => {
  assert.deepEqual(wkt.infer(' point zm(1'), { kind: 'Point', dimension: 'XYZM' });
  assert.deepEqual(wkt.infer('LINEARRING Z(1 2 3)'), { kind: 'LineString', dimension: 'XYZ' });
  assert.deepEqual(wkt.infer(bytes('geometrycollection m empty')), { kind: 'GeometryCollection', dimension: 'XYM' });
  for (const [text, status, message] of [['FOO(', 1, 'No kind word'], ['POINTEMPTY', 2, 'No space before EMPTY'], ['POINT', 3, 'Neither a parenthesis nor EMPTY']]) {
    const error = thrown(() => wkt.infer(text));
    assert.deepEqual([error.status, error.message, error.place], [status, message, null]);
  }
});
