// Memory, nesting, and a trap.
import test from 'node:test';
import assert from 'node:assert/strict';
import vm from 'node:vm';
import { STATUS, WktError, load } from '../src/node.js';
import { Engine } from '../src/engine.js';
import { bytes, moduleBytes, thrown, wkt } from './support.js';

test('the module imports nothing', async () => {
  const module = await WebAssembly.compile(moduleBytes());
  assert.deepEqual(WebAssembly.Module.imports(module), []);
});

test('a million nested collections', () => {
  const n = 1e6;
  const text = `${'GEOMETRYCOLLECTION('.repeat(n)}POINT(1 2)${')'.repeat(n)}`;
  assert.ok(wkt.canonical(text) === text);
  assert.equal(wkt.explain(text.slice(0, -1)).expected, '`,` or `)`');
  const json = wkt.toGeoJSON(text);
  assert.ok(json.endsWith(`{"type":"Point","coordinates":[1,2]}${']}'.repeat(n)}`));
  assert.ok(wkt.fromGeoJSON(json) === text);
  wkt.release();
});

test('texts of 100 MB, and memory is given back', () => {
  const point = '-12.345678 45.678901,';
  const points = Math.floor(1e8 / point.length);
  const text = `LINESTRING(${point.repeat(points)}1 2)`;
  const before = wkt.memory;
  assert.ok(wkt.canonical(text) === text);
  assert.equal(wkt.arrays(text).numbers.length, 2 * points + 2);
  assert.ok(wkt.memory > 3e8);
  const why = wkt.explain(`${text.slice(0, -1)} 3)`);
  assert.deepEqual([why.start, why.column, why.hint.slice(0, 14)], [text.length, text.length + 1, 'a third number']);
  wkt.release();
  assert.ok(wkt.memory <= before);
  assert.equal(wkt.canonical('POINT(1 2)'), 'POINT(1 2)');
});

test('a refused text leaves no memory', async () => {
  const one = await load(moduleBytes());
  const before = one.memory;
  const [long, blank, broken] = [`POINT(1 2)${' '.repeat(2e7)}x`, `${' '.repeat(2e7)}x`, `${' '.repeat(2e7)}\ud800`];
  const wrong = bytes(long).fill(255, -1);
  const calls = [() => one.canonical(long), () => one.same('POINT(1 2)', long), () => one.arrays(long), () => one.readEvents(long), () => one.toGeoJSONObject(long),
    () => one.infer(blank), () => one.front(blank), () => one.canonical(broken), () => one.explain(wrong)];
  for (const call of calls) {
    assert.ok(thrown(call) instanceof WktError);
    assert.ok(one.memory <= before, String(call));
    assert.equal(one.canonical('point(1 2.0)'), 'POINT(1 2)');
  }
  for (const text of [long, blank, broken]) {
    assert.equal(one.reads(text), false);
    assert.deepEqual(one.columns([text, 'point(1 2.0)']).texts, [null, 'POINT(1 2)']);
    assert.ok(one.memory <= before);
  }
  assert.equal(one.explain(blank).start, 2e7);
  assert.ok(one.memory <= before);
});

test('memory is as many times the text as README.md says', async () => {
  const points = (n) => `MULTIPOINT(${'.1 .1,'.repeat(n)}1 2)`;
  const figures = [[points(5e5), {}, { canonical: 10, reads: 10, lines: 10, same: 10, toGeoJSON: 10, readEvents: 22, toGeoJSONObject: 22, arrays: 26 }],
    [`SRID=1;${points(1e5).replaceAll('.1', '1e9')}`, { dialect: 'ewkt,exponents' }, { canonical: 120, same: 120, readEvents: 330, toGeoJSONObject: 330, arrays: 330 }]];
  for (const [text, asked, most] of figures) {
    for (const [call, times] of Object.entries(most)) {
      const one = await load(moduleBytes());
      if (call === 'same') one.same(text, text, asked);
      else one[call](text, asked);
      assert.ok(one.memory <= times * text.length, `${call}: ${one.memory / text.length}`);
    }
  }
});

test('long texts of each shape, in time that grows as they do', { timeout: 900000 }, () => {
  const n = 4e6;
  const refused = [`POINT(${'9'.repeat(n)} 1)`, `POINT(0.${'1'.repeat(n)} 1)`, 'x'.repeat(n), ' '.repeat(n), '\n'.repeat(n), '𝄞'.repeat(n), `POINT(1 2)${' '.repeat(n)}x`,
    `POINT(1 2)${' x'.repeat(n)}`, `POINT(1 2)${'\n\tx'.repeat(n)}`, '('.repeat(n), ','.repeat(n), `LINESTRING(${'1 1 '.repeat(n)}`, '0'.repeat(n), `SRID=${'1'.repeat(n)}`];
  for (const text of refused) {
    const why = wkt.explain(text);
    assert.ok(why.cause.length < 200 && why.caret.length < 300);
    assert.deepEqual(wkt.explain(bytes(text)).cause, why.cause);
    assert.equal(wkt.lines(text).split('\n')[0], text.startsWith('POINT(1 2)') ? 'POINT(1 2)' : 'refused');
    if (!text.includes('x')) assert.throws(() => wkt.fromGeoJSON(text), text === '0'.repeat(n) ? SyntaxError : Error);
  }
  const points = `MULTIPOINT M(${'(1 2 3),'.repeat(n / 8)}(1 2 3))`;
  const list = `[${'[1,2],'.repeat(n / 8)}[1,2]]`;
  assert.ok(wkt.toGeoJSON(points, { m: 'drop' }) === `{"type":"MultiPoint","coordinates":${list}}`);
  assert.ok(wkt.fromGeoJSON(`{"coordinates":${list},"type":"MultiPoint"}`) === points.replaceAll(' 3', '').replace(' M', ''));
  assert.ok(wkt.fromGeoJSON(`{"type":"Point","coordinates":[1,2],"${'a'.repeat(n)}":"${'\\n'.repeat(n)}"}`) === 'POINT(1 2)');
  wkt.release();
});

test('characters of two and three bytes, in the least memory', () => {
  for (const character of ['é', '€', '𝄞']) {
    wkt.release();
    const text = `POINT(1 2) ${character.repeat(3e6)}`;
    const why = wkt.explain(text);
    assert.deepEqual([why.start, why.stop], [11, text.length]);
  }
  wkt.release();
});

test('a text for which there is no memory', async () => {
  const engine = new Engine(await WebAssembly.compile(moduleBytes()));
  const error = thrown(() => engine.lay(2 ** 32));
  assert.ok(error instanceof WktError);
  assert.equal(error.status, STATUS.NO_MEMORY);
  const at = engine.put('POINT(1 2)');
  assert.equal(engine.canonical(at, engine.length, 18), STATUS.OK);
});

test('instances have memories of their own', async () => {
  const other = await load(moduleBytes());
  const before = other.memory;
  wkt.canonical(`LINESTRING(${'1 2,'.repeat(1e6)}1 2)`);
  assert.equal(other.memory, before);
  assert.equal(other.canonical('POINT(1 2)'), wkt.canonical('POINT(1 2)'));
  wkt.release();
});

test('after a trap the next call has a new instance', async () => {
  const engine = new Engine(await WebAssembly.compile(moduleBytes()));
  const first = engine.calls;
  const cells = engine.cellAt.slice(0, 4);
  // An address past the memory, which no call of this package passes.
  assert.throws(() => engine.call('wkt_explain', 2n ** 31n, 10n, 18, ...cells), WebAssembly.RuntimeError);
  engine.reset();
  assert.notEqual(engine.calls, first);
  const at = engine.put('POINT(1 2)');
  assert.equal(engine.canonical(at, engine.length, 18), STATUS.OK);
  assert.equal(engine.ascii(engine.answer, engine.size(0)), 'POINT(1 2)');
});

test('the call after one that ran out of stack', async () => {
  const one = await load(moduleBytes());
  const text = `GEOMETRYCOLLECTION(${'POINT(1 2),'.repeat(50)}POINT(3 4))`;
  const below = (levels, call) => (levels > 0 ? below(levels - 1, call) : call());
  const calls = [() => one.canonical(text), () => one.explain(text), () => one.arrays('POINT(1 2)'), () => one.readEvents(text), () => one.lines(text), () => one.release()];
  let stopped = 0;
  for (const call of calls) {
    // The last levels at which it has stack, and the first at which nothing has.
    let [has, lacks] = [0, 1 << 20];
    while (has + 1 < lacks) {
      const middle = (has + lacks) >> 1;
      try {
        below(middle, call);
        has = middle;
      } catch {
        lacks = middle;
      }
      assert.equal(one.canonical('point(1 2.0)'), 'POINT(1 2)');
    }
    for (let levels = has - 20; levels < has + 40; levels++) {
      try {
        below(levels, call);
      } catch (error) {
        assert.ok(error instanceof RangeError);
        stopped++;
      }
      assert.equal(one.canonical('point(1 2.0)'), 'POINT(1 2)');
      assert.equal(one.explain(text), null);
    }
  }
  assert.ok(stopped > 0);
});

test('the call after one that a time limit ended', async () => {
  const one = await load(moduleBytes());
  const text = `LINESTRING(${'1.0 2,'.repeat(2e6)}1 2)`;
  const context = vm.createContext({ one, text });
  const limited = () => vm.runInContext('for (;;) one.reads(text);', context, { timeout: 100 });
  for (let i = 0; i < 5; i++) {
    assert.equal(thrown(limited).code, 'ERR_SCRIPT_EXECUTION_TIMEOUT');
    assert.equal(one.canonical('point(1 2.0)'), 'POINT(1 2)');
  }
});
