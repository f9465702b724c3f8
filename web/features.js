// What is given out of canonical lines: the lines, a FeatureCollection of GeoJSON (RFC 7946), or a table.
import { GeoJSONError } from '../javascript/src/index.js';
import { geoJSONOf } from '../javascript/src/geojson.js';
import { printable } from '../javascript/src/printable.js';

const DEPTH = { POLYGON: 2, MULTIPOLYGON: 3, LINESTRING: 1, MULTILINESTRING: 2 };
/** Below this part of the sum of its terms the sign of an area of doubles isn't sure. */
const SURE = 1e-9;

/** A decimal in units of ten to the minus 36: it has no more places. */
export function units(text) {
  const [whole, fraction = ''] = text.split('.');
  return BigInt(whole + fraction.padEnd(36, '0'));
}

/** The sign of twice the area of a closed ring: more than 0 where it turns to the left. It is exact. */
function turn(positions) {
  const xy = positions.map((position) => position.split(' ', 2));
  const numbers = xy.map(([x, y]) => [Number(x), Number(y)]);
  let [area, size] = [0, 0];
  for (let i = 1; i < numbers.length; i++) {
    const [[ax, ay], [bx, by]] = [numbers[i - 1], numbers[i]];
    area += ax * by - bx * ay;
    size += Math.abs(ax * by) + Math.abs(bx * ay);
  }
  if (Math.abs(area) > SURE * size) return Math.sign(area);
  const exact = xy.map((pair) => pair.map(units));
  let sum = 0n;
  for (let i = 1; i < exact.length; i++) sum += exact[i - 1][0] * exact[i][1] - exact[i][0] * exact[i - 1][1];
  return sum > 0n ? 1 : sum < 0n ? -1 : 0;
}

/** A position without its m. */
const withoutM = (position, m) => (m ? position.slice(0, position.lastIndexOf(' ')) : position);

/** A ring as RFC 7946 has it: closed, of four positions or more, and turned as it is asked for. */
function ringOf(run, outer, { winding, rings, m }) {
  const positions = run.split(',');
  if (withoutM(positions[0], m) !== withoutM(positions.at(-1), m)) {
    if (rings !== 'close') throw new GeoJSONError('a ring doesn’t end where it begins');
    positions.push(positions[0]);
  }
  if (positions.length < 4) throw new GeoJSONError('a ring has less than four positions');
  const left = turn(positions);
  if (winding === 'right-hand' && left !== 0 && left > 0 !== outer) positions.reverse();
  return positions.join(',');
}

/**
 * A canonical text whose lines and rings are those of RFC 7946, or a GeoJSONError where they can't be. `winding`: `keep`, or
 * `right-hand`, by which outer rings turn to the left and holes to the right. `rings`: `refuse`, or `close`, which puts the
 * first position of an open ring at its end too.
 */
export function asRfc7946(text, asked) {
  let out = '';
  let [word, m, level, outer] = ['', false, 0, true];
  for (let at = 0; at < text.length; ) {
    const c = text[at];
    if (c >= 'A') {
      const end = text.slice(at, at + 40).search(/[^A-Z ]/);
      const header = end < 0 ? text.slice(at) : text.slice(at, at + end);
      const kind = header.split(' ')[0];
      if (kind !== 'EMPTY') [word, m, level, outer] = [kind, / Z?M\b/.test(header), 0, true];
      out += header;
      at += header.length;
    } else if (c === '(' && DEPTH[word] === level + 1) {
      const end = text.indexOf(')', at);
      const run = text.slice(at + 1, end);
      if (word.endsWith('LINESTRING') && !run.includes(',')) throw new GeoJSONError('a line has less than two positions');
      out += `(${word.endsWith('POLYGON') ? ringOf(run, outer, { ...asked, m }) : run})`;
      outer = false;
      at = end + 1;
    } else {
      level += c === '(' ? 1 : c === ')' ? -1 : 0;
      if (c === '(') outer = true;
      out += c;
      at++;
    }
  }
  return out;
}

/** A canonical text as the geometry of a feature: RFC 7946 has no m, which is refused or left out, and never becomes z. */
export const geometryOf = (text, { m = 'refuse', ...asked }) => geoJSONOf(asRfc7946(text, asked), m);

/** What a spreadsheet takes for the beginning of a formula, also in full width; and behind a semicolon, which many read as the end of a cell. */
const FORMULA = /(^|;)(?=[=+\-@\uff1d\uff0b\uff0d\uff20])/g;

/** A cell of a CSV. What would be a formula gets an apostrophe. */
export function cell(value) {
  const text = printable(String(value));
  const safe = typeof value === 'string' ? text.replace(FORMULA, "$1'") : text;
  return /[",]/.test(safe) ? `"${safe.replaceAll('"', '""')}"` : safe;
}

/** A table of refusals, as a CSV (RFC 4180): a place is a character of its line, and the text is what the caret shows of it. */
export function tableOf(whys) {
  const records = [['line', 'place', 'expected', 'cause', 'hint', 'message', 'text']];
  for (const { line, column, expected, cause, hint, message, caret } of whys) {
    records.push([line, column, expected, cause, hint, message, caret.split('\n')[0]]);
  }
  return records.map((record) => `${record.map(cell).join(',')}\r\n`).join('');
}

/**
 * Canonical lines, among which `refused` stands, in a form; pieces of text, and at last what was left out. `numberOf` gives a
 * line's number, and `refused` keeps or leaves out what is refused.
 */
export function* formed(lines, { form, refused, numberOf, ...asked }) {
  const left = [];
  let n = 0;
  let first = true;
  if (form === 'geojson') yield '{"type":"FeatureCollection","features":[';
  for (const line of lines) {
    n++;
    if (line === 'refused' && refused !== 'keep') continue;
    if (form === 'wkt') {
      yield `${line}\n`;
      continue;
    }
    let geometry = 'null';
    let why = line === 'refused' ? 'refused' : null;
    try {
      if (!why) geometry = geometryOf(line, asked);
    } catch (error) {
      if (!(error instanceof GeoJSONError)) throw error;
      why = error.message;
      left.push({ line: numberOf(n), why });
      if (refused !== 'keep') continue;
    }
    const properties = { line: numberOf(n), ...(why ? { refused: why } : {}) };
    yield `${first ? '' : ','}\n{"type":"Feature","properties":${JSON.stringify(properties)},"geometry":${geometry}}`;
    first = false;
  }
  if (form === 'geojson') yield '\n]}\n';
  return left;
}
