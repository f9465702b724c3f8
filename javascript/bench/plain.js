// toGeoJSONObject and arrays beside a plain reader of doubles, and fromArrays beside a plain writer: plain.js MODULE.
// Processor time, the best of twelve runs.
import { readFileSync } from 'node:fs';
import { load } from '../src/node.js';

const wkt = await load(readFileSync(process.argv[2]));

/** Reads points, lines and polygons as wellknown does, by sticky regular expressions. */
function plain(text) {
  let at = 0;
  const [number, space, word] = [/[-+]?(?:\d+\.?\d*|\.\d+)(?:e[-+]?\d+)?/iy, /\s*/y, /[a-z]+/iy];
  const take = (form) => {
    form.lastIndex = at;
    const found = form.exec(text);
    if (found) at = form.lastIndex;
    return found?.[0];
  };
  const mark = (c) => take(space) !== undefined && text[at] === c && ++at;
  const list = (item) => {
    if (!mark('(')) throw new Error('no (');
    const all = [];
    do all.push(item()); while (mark(','));
    if (!mark(')')) throw new Error('no )');
    return all;
  };
  const position = () => {
    const numbers = [];
    for (let it; take(space) !== undefined && (it = take(number)); ) numbers.push(parseFloat(it));
    return numbers;
  };
  const line = () => list(position);
  switch (take(word).toUpperCase()) {
    case 'POINT': return { type: 'Point', coordinates: line()[0] };
    case 'LINESTRING': return { type: 'LineString', coordinates: line() };
    case 'POLYGON': return { type: 'Polygon', coordinates: list(line) };
    default: throw new Error('no kind');
  }
}

/** Writes them. */
function plainText({ type, coordinates }) {
  const position = (it) => it.join(' ');
  const line = (it) => `(${it.map(position).join(',')})`;
  if (type === 'Point') return `POINT(${position(coordinates)})`;
  return type === 'Polygon' ? `POLYGON(${coordinates.map(line).join(',')})` : `LINESTRING${line(coordinates)}`;
}

let seed = 1;
const some = () => (seed = (seed * 48271) % 2147483647) / 2147483647;
const position = () => `${(some() * 360 - 180).toFixed(6)} ${(some() * 180 - 90).toFixed(6)}`;
const long = () => `${(some() * 360 - 180).toFixed(15)} ${(some() * 180 - 90).toFixed(15)}`;
const positions = (n) => Array.from({ length: n }, position).join(', ');
const WORKLOADS = {
  points: Array.from({ length: 20000 }, () => `POINT(${position()})`),
  'points of 15 decimals': Array.from({ length: 20000 }, () => `POINT(${long()})`),
  polygons: Array.from({ length: 2000 }, () => `POLYGON((${positions(20)}, 0 0))`),
  lines: Array.from({ length: 20 }, () => `LINESTRING(${positions(2000)})`),
};
const READERS = { toGeoJSONObject: (text) => wkt.toGeoJSONObject(text), 'JSON.parse(toGeoJSON)': (text) => JSON.parse(wkt.toGeoJSON(text)), arrays: (text) => wkt.arrays(text, { places: 15 }), 'a plain reader': plain };

/** The best speeds of some calls, each of which has things of its own, of a size in all. */
function speeds(calls, size) {
  const best = Object.fromEntries(Object.keys(calls).map((call) => [call, Infinity]));
  for (let i = 0; i < 12; i++) {
    for (const [call, [made, things]] of Object.entries(calls)) {
      const begun = process.cpuUsage();
      for (const it of things) made(it);
      const { user, system } = process.cpuUsage(begun);
      best[call] = Math.min(best[call], (user + system) / 1e6);
    }
  }
  return `${Object.entries(best).map(([call, seconds]) => `${call} ${(size / 1e6 / seconds).toFixed(1)}`).join(', ')} MB/s`;
}

for (const [name, texts] of Object.entries(WORKLOADS)) {
  const size = texts.reduce((n, text) => n + text.length, 0);
  const read = Object.fromEntries(Object.entries(READERS).map(([call, made]) => [call, [made, texts]]));
  console.log(`${name}: ${speeds(read, size)}`);
  const written = { fromArrays: [(it) => wkt.fromArrays(it), texts.map((text) => wkt.arrays(text, { places: 15 }))], 'a plain writer': [plainText, texts.map(plain)] };
  console.log(`${name}: ${speeds(written, size)}`);
}
