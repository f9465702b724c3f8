// What the tests share.
import assert from 'node:assert/strict';
import { readFileSync } from 'node:fs';
import { load } from '../src/node.js';

const TOP = new URL('../../', import.meta.url);

/** The module that is tested: the file that WKT_WASM names, or the package's. */
export const moduleBytes = () => readFileSync(process.env.WKT_WASM ?? new URL('dist/wasm/wkt.wasm', TOP));
export const wkt = await load(moduleBytes());

/** The lines of a file of the repository, without those that are comments. */
export const linesOf = (path) => readFileSync(new URL(path, TOP), 'utf8').split('\n').filter((line) => line && !line.startsWith('#'));
/** The rows of a table of the repository. */
export const rowsOf = (path) => readFileSync(new URL(path, TOP), 'utf8').split('\n').slice(0, -1).filter((row) => !row.startsWith('#')).map((row) => row.split('\t'));

export const bytes = (text) => new TextEncoder().encode(text);
export const texts = (data) => new TextDecoder().decode(data);

/** The error of a call. */
export function thrown(call) {
  try {
    call();
  } catch (error) {
    return error;
  }
  return assert.fail('nothing was thrown');
}
