// Well-known text by proved code, for browsers, workers and bundlers.
import { fetched, loader } from './load.js';

export { DIMENSIONS, GeoJSONError, KINDS, STATUS, WktError, decimal } from './load.js';

export const load = loader(() => fetched(new URL('../wkt.wasm', import.meta.url)));
