// What the compiler of TypeScript takes, and what it refuses: each line behind @ts-expect-error is to be an error.
import { load, WktError, GeoJSONError, KINDS, DIMENSIONS, STATUS, decimal } from 'wkt-proved';
import type { Arrays, Events, Explanation, GeoJSONGeometry, GivenArrays, Wkt } from 'wkt-proved';
import { load as inline } from 'wkt-proved/inline';

const wkt: Wkt = await load();
const other: Wkt = await inline();
await load(fetch('wkt.wasm'));
await load(new URL('https://example.org/wkt.wasm'));
await load(await WebAssembly.compile(new Uint8Array(8)));
// @ts-expect-error nothing is no module
await load(null);

const key: string = wkt.canonical('POINT(1 2)', { places: 6, whole: false });
const data: Uint8Array = wkt.canonicalBytes(new Uint8Array(3), { places: 6, feed: true });
const { canonical, end }: { canonical: string; end: number } = wkt.front('POINT(1 2),');
const answers: [boolean, boolean] = [wkt.reads('x'), wkt.same('x', new Uint8Array(3), { whole: true })];
// @ts-expect-error a text is no number
wkt.canonical(7);
// @ts-expect-error places are a number
wkt.canonical('POINT(1 2)', { places: '6' });
// @ts-expect-error an option that isn't there
wkt.canonical('POINT(1 2)', { hole: true });
wkt.canonical('POINT(1 2 3)', { dialect: 'ewkt,exponents' });
// @ts-expect-error a dialect is named by a string
wkt.canonical('POINT(1 2 3)', { dialect: ['ewkt'] });
// @ts-expect-error lines are read in no dialect
wkt.lines('POINT(1 2)', { dialect: 'ewkt' });
const srid: number | null = wkt.srid('SRID=1;POINT(1 2)');
// @ts-expect-error lines are never whole texts
wkt.lines('POINT(1 2)', { whole: true });

const why: Explanation | null = wkt.explain('x');
// @ts-expect-error it may be null
why.start;
if (why) {
  const words: string = why.cause + why.caret + why.hint + why.code + why.expected + why.message;
  const numbers: number = why.start + why.stop + why.line + why.column + why.status;
  // @ts-expect-error it is read only
  why.start = 0;
  console.log(words, numbers);
}
try {
  wkt.infer('x').kind === 'GeometryCollection';
} catch (error) {
  if (error instanceof WktError && error.status === STATUS.NOT_WHOLE) console.log(error.place?.line, error.hint, error.caret, error.words);
  const again: WktError = WktError.from(error);
  console.log(again.cause.place?.caret, again.cause.status.toFixed());
  if (error instanceof GeoJSONError) console.log(error.message);
}
// @ts-expect-error there is no such kind
wkt.infer('x').kind === 'Circle';

const arrays: Arrays = wkt.arrays('POINT(1 2)', { places: 6 });
const unit: bigint = arrays.numbers[0];
const doubles: Float64Array = arrays.coordinates;
wkt.fromArrays(arrays);
const given: GivenArrays = { kind: 'Point', numbers: [1n, 2n], rings: [0, 1], polygons: [0, 1] };
wkt.fromArrays(given);
// @ts-expect-error numbers are of bigint
wkt.fromArrays({ ...given, numbers: [1, 2] });
// @ts-expect-error a collection has no flat arrays
wkt.fromArrays({ ...given, kind: 'GeometryCollection' });

const { events, numbers }: Events = wkt.readEvents('POINT(1 2)', { places: 6, dialect: 'nan' });
const first: bigint = numbers[0];
for (const event of events) if (event !== null && typeof event === 'object') console.log(event.kind, event.dimension);
// @ts-expect-error an event may be a number, or null
events[0].kind;

const column: { texts: (string | null)[]; statuses: Uint8Array } = wkt.columns(['x', null, undefined, new Uint8Array(3)]);
const lines: [string, Uint8Array] = [wkt.lines('x'), wkt.lines(new Uint8Array(3), { places: 6 })];
const stream: ReadableStream<Uint8Array> = new Blob(['x']).stream().pipeThrough(wkt.lineStream({ places: 6 }));

const json: string = wkt.toGeoJSON('POINT(1 2)', { m: 'drop', whole: false });
const geometry: GeoJSONGeometry = wkt.toGeoJSONObject('POINT(1 2)');
if (geometry.type === 'Polygon') console.log(geometry.coordinates[0][0][0].toFixed(1));
const back: string = wkt.fromGeoJSON(geometry) + wkt.fromGeoJSON(json, { places: 6 });
// @ts-expect-error m is one of three words
wkt.toGeoJSON('POINT(1 2)', { m: 'lose' });

const listed: string = KINDS[0] + DIMENSIONS[0] + decimal(1n, 2);
const ok: 0 = STATUS.OK;
const bytes: number = wkt.memory;
wkt.release();
// @ts-expect-error it is read only
wkt.memory = 0;
console.log(key, data, canonical, end, answers, unit, doubles, column, lines, stream, back, listed, ok, bytes, other, srid, first);
