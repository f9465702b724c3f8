// What the module is loaded from.
import test from 'node:test';
import assert from 'node:assert/strict';
import { createServer } from 'node:http';
import { spawnSync } from 'node:child_process';
import { cpSync, mkdirSync, mkdtempSync, readFileSync, readdirSync, rmSync, writeFileSync } from 'node:fs';
import { tmpdir } from 'node:os';
import { join, relative } from 'node:path';
import { pathToFileURL } from 'node:url';
import { runInNewContext } from 'node:vm';
import { load } from '../src/node.js';
import { bytes, moduleBytes, texts } from './support.js';

const works = (wkt) => assert.equal(wkt.canonical('point( 1 2.0 )'), 'POINT(1 2)');

test('bytes, a module, and a promise of one', async () => {
  const data = moduleBytes();
  works(await load(data));
  works(await load(data.buffer.slice(data.byteOffset, data.byteOffset + data.length)));
  const module = await WebAssembly.compile(data);
  works(await load(module));
  works(await load(Promise.resolve(module)));
});

test('bytes and a module of another realm, as of a frame or of the sandbox of a test', async () => {
  const [Bytes, compile] = runInNewContext('[Uint8Array, WebAssembly.compile]');
  const data = Bytes.from(moduleBytes());
  assert.ok(!(data instanceof Uint8Array) && !(data.buffer instanceof ArrayBuffer));
  const wkt = await load(data.buffer);
  works(await load(await compile(data)));
  const text = Bytes.from(bytes('point( 1 2.0 )\n'));
  assert.equal(wkt.canonical(text), 'POINT(1 2)');
  assert.equal(texts(wkt.lines(text)), 'POINT(1 2)\n');
  assert.throws(() => wkt.canonical(new DataView(data.buffer)), TypeError);
});

test('a file', async () => {
  const folder = mkdtempSync(join(tmpdir(), 'wkt-'));
  try {
    const file = join(folder, 'module.wasm');
    writeFileSync(file, moduleBytes());
    works(await load(pathToFileURL(file)));
    works(await load(pathToFileURL(file).href));
    works(await load(file));
    works(await load(relative('.', file)));
    await assert.rejects(load(pathToFileURL(join(folder, 'none.wasm'))), { code: 'ENOENT' });
  } finally {
    rmSync(folder, { recursive: true });
  }
});

test('a server, whatever type it says', async () => {
  const server = createServer((request, answer) => {
    const found = request.url !== '/none';
    answer.writeHead(found ? 200 : 404, { 'content-type': request.url.slice(1).replace('-', '/') });
    answer.end(found ? moduleBytes() : 'no');
  });
  await new Promise((done) => server.listen(0, '127.0.0.1', done));
  const at = `http://127.0.0.1:${server.address().port}`;
  try {
    works(await load(`${at}/application-wasm`));
    works(await load(new URL(`${at}/text-html`)));
    works(await load(fetch(`${at}/application-wasm`)));
    await assert.rejects(load(`${at}/none`), /404/);
  } finally {
    server.close();
    server.closeAllConnections?.();
  }
});

test('what is no module', async () => {
  await assert.rejects(load(new Uint8Array(8)), WebAssembly.CompileError);
  await assert.rejects(load('http://127.0.0.1:1/wkt.wasm'));
  for (const source of [7, null, {}, []]) await assert.rejects(load(source), TypeError);
});

test('npm packs no folder that pack.sh has not put together', { skip: spawnSync('npm', ['--version']).error && 'no npm' }, () => {
  const folder = mkdtempSync(join(tmpdir(), 'wkt-'));
  try {
    cpSync(new URL('../', import.meta.url), folder, { recursive: true });
    const packed = () => spawnSync('npm', ['pack', '--offline', '--json', '--loglevel=error'], { cwd: folder, encoding: 'utf8' });
    const stopped = packed();
    assert.notEqual(stopped.status, 0);
    assert.match(stopped.stderr, /javascript\/pack\.sh puts the package together/);
    assert.deepEqual(readdirSync(folder).filter((name) => name.endsWith('.tgz')), []);
    writeFileSync(join(folder, 'NOTICE'), 'whose code it is');
    // As pack.sh leaves it: what a clone prepares is there.
    const manifest = join(folder, 'package.json');
    writeFileSync(manifest, readFileSync(manifest, 'utf8').replace(/^ *"prepare":.*\n/m, ''));
    writeFileSync(join(folder, 'wkt.wasm'), 'a module');
    mkdirSync(join(folder, 'cjs'));
    writeFileSync(join(folder, 'cjs/inline.cjs'), 'the same');
    const done = packed();
    assert.equal(done.status, 0, done.stderr);
    assert.ok(JSON.parse(done.stdout)[0].files.some(({ path }) => path === 'wkt.wasm'));
  } finally {
    rmSync(folder, { recursive: true });
  }
});

// A module that exports a memory and nothing else, and one that imports a function: (module (memory (export "memory") 1)), (module (import "a" "b" (func))).
const OTHERS = [
  [0, 0x61, 0x73, 0x6d, 1, 0, 0, 0, 5, 3, 1, 0, 1, 7, 10, 1, 6, ...bytes('memory'), 2, 0],
  [0, 0x61, 0x73, 0x6d, 1, 0, 0, 0, 1, 4, 1, 0x60, 0, 0, 2, 7, 1, 1, 0x61, 1, 0x62, 0, 0],
];
test('another module', async () => {
  for (const other of OTHERS) await assert.rejects(load(Uint8Array.from(other)), { name: 'TypeError', message: /^this module isn't wkt\.wasm: it has no / });
});
