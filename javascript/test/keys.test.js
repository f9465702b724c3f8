// The keys that stores keep (tests/data/keys.tsv), at each number of places.
import test from 'node:test';
import assert from 'node:assert/strict';
import { WktError, STATUS } from '../src/node.js';
import { bytes, rowsOf, texts, thrown, wkt } from './support.js';

const KEYS = rowsOf('tests/data/keys.tsv');
const PLACES = [0, 6, 15, 18, 24, 36];
const beginning = (places) => ({ places, whole: false });

test('there are 850 of them', () => assert.equal(KEYS.length, 850));

for (const [i, places] of PLACES.entries()) {
  const all = KEYS.map((row) => row[0]);
  const wanted = KEYS.map((row) => row[1 + i]);

  test(`one by one, at ${places} places`, () => {
    for (const [n, text] of all.entries()) {
      const key = wanted[n];
      assert.equal(wkt.reads(text, beginning(places)), key !== 'refused', text);
      if (key === 'refused') {
        const error = thrown(() => wkt.canonical(text, beginning(places)));
        assert.ok(error instanceof WktError && error.status < STATUS.LAST_REFUSAL, text);
        continue;
      }
      assert.equal(wkt.canonical(text, beginning(places)), key);
      assert.equal(texts(wkt.canonicalBytes(bytes(text), beginning(places))), key);
      assert.equal(texts(wkt.canonicalBytes(bytes(text), { ...beginning(places), feed: true })), `${key}\n`);
      assert.equal(wkt.canonical(key, { places }), key);
      assert.equal(wkt.front(text, { places }).canonical, key);
      assert.ok(wkt.same(text, key, beginning(places)));
      assert.equal(wkt.explain(text, beginning(places)), null);
    }
  });

  test(`lines and columns, at ${places} places`, async () => {
    assert.deepEqual(wkt.lines(all.join('\n'), { places }).split('\n'), [...wanted, '']);
    const column = wkt.columns(all, beginning(places));
    assert.deepEqual(column.texts.map((text) => text ?? 'refused'), wanted);
    assert.deepEqual([...column.statuses].map((status) => status === STATUS.OK), wanted.map((key) => key !== 'refused'));
    const source = new Blob([all.join('\n')]).stream();
    let out = '';
    for await (const piece of source.pipeThrough(wkt.lineStream({ places }))) out += texts(piece);
    assert.deepEqual(out.split('\n'), [...wanted, '']);
  });
}

test('same tells geometries apart', () => {
  const keys = [...new Set(KEYS.map((row) => row[4]).filter((key) => key !== 'refused'))];
  for (let i = 1; i < keys.length; i++) assert.equal(wkt.same(keys[i - 1], keys[i]), false, keys[i]);
});
