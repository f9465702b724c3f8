// Lines, at once and in chunks.
import test from 'node:test';
import assert from 'node:assert/strict';
import { readFileSync } from 'node:fs';
import { Engine } from '../src/engine.js';
import { LineAnswers, joined } from '../src/lines.js';
import { bytes, moduleBytes, texts, wkt } from './support.js';

const INPUT = 'POINT(1 2)\npoint( 3 4.0 )\r\nFOO\n\nPOLYGON((0 0,1 0,0 1,0 0))\nPOINT(5 6) é𝄞\nlast';
const WANTED = 'POINT(1 2)\nPOINT(3 4)\nrefused\nrefused\nPOLYGON((0 0,1 0,0 1,0 0))\nPOINT(5 6)\nrefused\n';

async function streamed(chunks, options) {
  const source = new ReadableStream({
    start(to) {
      for (const chunk of chunks) to.enqueue(chunk);
      to.close();
    },
  });
  const pieces = [];
  for await (const piece of source.pipeThrough(wkt.lineStream(options))) pieces.push(texts(piece));
  return pieces.join('');
}

test('at once', () => {
  assert.equal(wkt.lines(INPUT), WANTED);
  assert.equal(texts(wkt.lines(bytes(INPUT))), WANTED);
  assert.equal(wkt.lines(''), '');
  assert.equal(wkt.lines('\n'), 'refused\n');
  assert.equal(wkt.lines('POINT(1.5 2)\nPOINT(1 2)', { places: 0 }), 'refused\nPOINT(1 2)\n');
  assert.deepEqual(wkt.lines(Uint8Array.of(0xff, 10)), bytes('refused\n'));
});

test('the output of wktline', async () => {
  const file = (name) => new Uint8Array(readFileSync(new URL(`../../crates/wktline/${name}`, import.meta.url)));
  assert.deepEqual(wkt.lines(file('stdin')), file('stdout'));
  assert.equal(await streamed([file('stdin')]), texts(file('stdout')));
});

test('in chunks of any size', async () => {
  const input = bytes(INPUT);
  for (const size of [1, 2, 3, 7, 11, 100]) {
    const chunks = [];
    for (let i = 0; i < input.length; i += size) chunks.push(input.slice(i, i + size), new Uint8Array(0));
    assert.equal(await streamed(chunks), WANTED, String(size));
  }
  assert.equal(await streamed([]), '');
  await assert.rejects(streamed(['POINT(1 2)\n']), TypeError);
});

test('a chunk that its owner gave away ends the stream', async () => {
  const gone = bytes('POINT(1 2)\n');
  structuredClone(gone.buffer, { transfer: [gone.buffer] });
  await assert.rejects(streamed([bytes('POINT(3 4)\n'), gone, bytes('POINT(5 6)\n')]), TypeError);
});

test('chunks that their owner uses again, and other calls between', async () => {
  for (const chunk of [new Uint8Array(8), Buffer.alloc(8)]) {
    const answers = wkt.lineStream();
    const writer = answers.writable.getWriter();
    const out = (async () => {
      let all = '';
      for await (const piece of answers.readable) all += texts(piece);
      return all;
    })();
    for (const part of ['POINT(1 ', '2)\nPOINT', '( 3 ', '4 )\n']) {
      chunk.set(bytes(part));
      await writer.write(chunk.subarray(0, part.length));
      chunk.fill(0);
      assert.equal(wkt.canonical('LINESTRING(0 0,9 9)'), 'LINESTRING(0 0,9 9)');
    }
    await writer.close();
    assert.equal(await out, 'POINT(1 2)\nPOINT(3 4)\n');
  }
});

test('a line in many small chunks takes its own memory, and little more', async () => {
  const answers = new LineAnswers(new Engine(await WebAssembly.compile(moduleBytes())), 18);
  const taken = () => process.memoryUsage().heapUsed + process.memoryUsage().external;
  const before = taken();
  for (const byte of bytes('LINESTRING(')) answers.push(Uint8Array.of(byte));
  const chunks = [...'1 2,'].map((mark) => bytes(mark));
  for (let i = 0; i < 100000; i++) for (const chunk of chunks) assert.equal(answers.push(chunk).length, 0);
  assert.ok(taken() - before < 4e7, `${taken() - before} bytes`);
  const answer = joined(answers.push(bytes('1 2)\nPOINT(3 4)\n')));
  assert.equal(texts(answer), `LINESTRING(${'1 2,'.repeat(100000)}1 2)\nPOINT(3 4)\n`);
});

test('many lines, long ones, and answers that are longer than their lines', async () => {
  assert.equal(wkt.lines('POINT(.1 .1)\n'.repeat(50000)), 'POINT(0.1 0.1)\n'.repeat(50000));
  const long = `LINESTRING(${'.1 .1,'.repeat(500000)}1 1)`;
  const answer = `LINESTRING(${'0.1 0.1,'.repeat(500000)}1 1)`;
  assert.equal(wkt.lines(`${long}\n${long}\nx`), `${answer}\n${answer}\nrefused\n`);
  assert.equal(await streamed([bytes(`${long}\nPOI`), bytes('NT(1 2)'), bytes(`\n${long}`)]), `${answer}\nPOINT(1 2)\n${answer}\n`);
  wkt.release();
});
