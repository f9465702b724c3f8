// What needs no types of a browser.
import { load } from 'wkt-proved';
import { load as inline } from 'wkt-proved/inline';

const wkt = await load(new Uint8Array(8));
const key: string = wkt.canonical('POINT(1 2)') + (await inline()).canonical('POINT(1 2)');
// @ts-expect-error nothing is no module
await load(null);
export { key };
