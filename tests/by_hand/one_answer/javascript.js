// The package for JavaScript over the module in dist/wasm: javascript.js ROWS
import { readFileSync } from 'node:fs';
import { Readable } from 'node:stream';
import { load, WktError } from '../../../javascript/src/index.js';

const TOP = new URL('../../../', import.meta.url);
const wkt = await load(readFileSync(process.env.WKT_WASM ?? new URL('dist/wasm/wkt.wasm', TOP)));
const decoder = new TextDecoder('utf-8', { fatal: true, ignoreBOM: true });
const takesDialects = 'srid' in wkt;
const out = [];
const say = (form, n, answer) => out.push(`${form}\t${n}\t${answer}\n`);

/** A string, or null where the bytes are no UTF-8. */
function stringOf(bytes) {
  try {
    return decoder.decode(bytes);
  } catch {
    return null;
  }
}

/** What a call answers, or its status. */
function answer(call, refused = (status) => `!${status}`) {
  try {
    return call();
  } catch (error) {
    if (!(error instanceof WktError)) throw error;
    return refused(error.status);
  }
}

/** An explanation, with places in bytes. */
function explained(text, why) {
  if (why === null) return '-';
  const bytes = (at) => (typeof text === 'string' ? Buffer.byteLength(text.slice(0, at)) : at);
  return `${why.status} ${bytes(why.start)} ${bytes(why.stop)} ${why.expected}|${why.hint}`;
}

const rows = readFileSync(process.argv[2], 'latin1').split('\n').filter(Boolean).map((line, n) => {
  const [places, whole, text, other, dialects] = line.split('\t');
  const bytes = new Uint8Array(Buffer.from(text, 'hex'));
  return { n, places: Number(places), whole: whole === '1', bytes, text: stringOf(bytes), other: new Uint8Array(Buffer.from(other, 'hex')), dialects };
}).filter((row) => takesDialects || row.dialects === '');

function single(sort, n, text, row) {
  const asked = { places: row.places, whole: row.whole };
  if (row.dialects !== '') asked.dialect = row.dialects;
  if (takesDialects) say(`srid.${sort}`, n, wkt.srid(text));
  say(`canonical.${sort}`, n, answer(() => wkt.canonical(text, asked)));
  say(`canonical.bytes_of_${sort}`, n, answer(() => Buffer.from(wkt.canonicalBytes(text, asked)).toString('latin1')));
  say(`reads.${sort}`, n, wkt.reads(text, asked) ? 't' : 'f');
  say(`explain.${sort}`, n, answer(() => explained(text, wkt.explain(text, asked))));
  say(`same.${sort}`, n, answer(() => (wkt.same(text, row.other, asked) ? 't' : 'f'), () => '!'));
  say(`infer.${sort}`, n, answer(() => Object.values(wkt.infer(text)).join(' ')));
  say(`front.${sort}`, n, answer(() => { const { canonical, end } = wkt.front(text, { places: asked.places, dialect: asked.dialect }); return `${end} ${canonical}`; }));
  const made = answer(() => wkt.arrays(text, asked));
  if (typeof made === 'string') return say(`arrays.${sort}`, n, made);
  say(`arrays.${sort}`, n, `${made.kind} ${made.dimension} ${made.numbers.join()} ${made.rings.join()} ${made.polygons.join()}`);
  say(`back.${sort}`, n, answer(() => wkt.fromArrays(made)));
}

for (const row of rows) {
  single('bytes', row.n, row.bytes, row);
  if (row.text !== null) single('string', row.n, row.text, row);
}
const plain = rows.filter((row) => row.dialects === '');
for (const key of new Set(plain.map((row) => `${row.places} ${row.whole}`))) {
  const group = plain.filter((row) => `${row.places} ${row.whole}` === key);
  const { places, whole } = group[0];
  const asked = { places, whole };
  const held = wkt.columns(group.map((row) => row.text ?? row.bytes), asked);
  group.forEach((row, i) => say('canonical.columns', row.n, held.statuses[i] ? `!${held.statuses[i]}` : held.texts[i]));
  const input = Buffer.concat(group.map((row) => Buffer.from(`${Buffer.from(row.bytes).toString('latin1').replaceAll('\n', ' ')}\n`, 'latin1')));
  const answers = (bytes) => Buffer.from(bytes).toString('latin1').split('\n');
  answers(wkt.lines(new Uint8Array(input), { places })).slice(0, -1).forEach((text, i) => say('line.bytes', group[i].n, text));
  const strings = group.filter((row) => row.text !== null);
  const joined = strings.map((row) => `${row.text.replaceAll('\n', ' ')}\n`).join('');
  wkt.lines(joined, { places }).split('\n').slice(0, -1).forEach((text, i) => say('line.string', strings[i].n, text));
  const pieces = [];
  for (let at = 0; at < input.length; at += 1400) pieces.push(new Uint8Array(input.subarray(at, at + 1400)));
  const parts = [];
  for await (const part of Readable.toWeb(Readable.from(pieces)).pipeThrough(wkt.lineStream({ places }))) parts.push(Buffer.from(part));
  answers(Buffer.concat(parts)).slice(0, -1).forEach((text, i) => say('line.stream', group[i].n, text));
}
process.stdout.write(out.join(''));
