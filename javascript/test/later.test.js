// A later module, which answers numbers that this package has no names for (docs/ABI.md says which it may).
import test from 'node:test';
import assert from 'node:assert/strict';
import { load } from '../src/node.js';
import { moduleBytes, thrown } from './support.js';

/** The package over a module of which some calls are changed: each gets what the module returned, its results, and its arguments. */
async function later(changes) {
  const { Instance } = WebAssembly;
  WebAssembly.Instance = function (module, imports) {
    const { exports } = new Instance(module, imports);
    const calls = { ...exports };
    for (const [name, change] of Object.entries(changes)) {
      calls[name] = (...args) => change(exports[name](...args), (at) => new Uint32Array(exports.memory.buffer, Number(at), 1), args);
    }
    return { exports: calls };
  };
  try {
    return await load(moduleBytes());
  } finally {
    WebAssembly.Instance = Instance;
  }
}

test('a new expectation, message and hint', async () => {
  const wkt = await later({
    wkt_explain(status, cell, [, , , message, , , expected]) {
      cell(message)[0] = 15;
      cell(expected)[0] = 11;
      return status;
    },
    wkt_hint(status, cell, [, , , hint]) {
      cell(hint)[0] = 99;
      return status;
    },
  });
  const { message, place } = thrown(() => wkt.canonical('POINT(1)'));
  assert.deepEqual([place.status, place.message, place.expected, place.hint, place.code], [15, 'Status 15', 'something newer (expectation 11)', '', 'hint_99']);
  assert.equal(message, 'at 8: something newer (expectation 11) was expected, and not )');
  assert.deepEqual(wkt.explain('POINT(1)'), place);
});

test('a new status', async () => {
  const wkt = await later({ wkt_canonical: () => 34, wkt_explain: () => 35, wkt_arrays: () => 36, wkt_infer: () => 37, wkt_same_ends: () => 38, wkt_lines_some: () => 39,
    wkt_read_events: () => 40, wkt_srid: () => 41 });
  const calls = [['canonical', 34], ['explain', 35], ['arrays', 36], ['infer', 37], ['same', 38], ['lines', 39], ['front', 34], ['toGeoJSON', 34],
    ['readEvents', 40], ['toGeoJSONObject', 40], ['srid', 41]];
  for (const [call, status] of calls) {
    const error = thrown(() => wkt[call]('POINT(1)', call === 'same' ? 'POINT(2)' : undefined));
    assert.deepEqual([error.name, error.status, error.message, error.place], ['WktError', status, `Status ${status}`, null], call);
  }
  assert.equal(wkt.reads('POINT(1 2)'), false);
  assert.deepEqual(wkt.columns(['POINT(1 2)']), { texts: [null], statuses: Uint8Array.of(34) });
});
