// The same for Node, where the module is read from its file.
import { fetched, loader } from './load.js';

export { DIMENSIONS, GeoJSONError, KINDS, STATUS, WktError, decimal } from './load.js';

const FETCHED = ['http:', 'https:', 'data:', 'blob:'];

/** Compiles a file: of a path, or of an address with `file:`. */
async function read(source) {
  if (FETCHED.some((scheme) => String(source).startsWith(scheme))) return fetched(source);
  const { readFile } = await import('node:fs/promises');
  return WebAssembly.compile(await readFile(typeof source === 'string' && source.startsWith('file:') ? new URL(source) : source));
}

/** The module of the package. In a clone of the repository it stands in another folder. */
async function packaged() {
  const beside = new URL('../wkt.wasm', import.meta.url);
  try {
    return await read(beside);
  } catch (error) {
    if (error.code !== 'ENOENT') throw error;
    return read(new URL('../dist/wasm/wkt.wasm', beside)).catch(() => {
      throw error;
    });
  }
}

export const load = loader(packaged, read);
