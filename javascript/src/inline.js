// The same with the module in it: nothing is fetched, and no file is read. javascript/build.py makes packed.js.
import { loader, unpacked } from './load.js';
import { PACKED } from './packed.js';

export { DIMENSIONS, GeoJSONError, KINDS, STATUS, WktError, decimal } from './load.js';

export const load = loader(() => unpacked(PACKED));
