// GeoJSON (RFC 7946) as text that is read then.
import { KINDS, KIND_WORDS, STATUS } from './names.js';
import { GeoJSONError, WktError } from './errors.js';
import { short } from './explanation.js';
import { NumberText } from './json.js';

// More digits than any number has that is read, before its point or behind it: 2 to the 127th has 39.
const MOST = 60;

/** A number of JSON without its exponent. */
function plainNumber(text) {
  const e = Math.max(text.indexOf('e'), text.indexOf('E'));
  if (e < 0) return text;
  const sign = text[0] === '-' ? '-' : '';
  const [whole, fraction = ''] = text.slice(sign.length, e).split('.');
  let digits = whole + fraction;
  let first = 0;
  while (digits[first] === '0') first++;
  if (first === digits.length) return '0';
  let last = digits.length;
  while (digits[last - 1] === '0') last--;
  // The number is 0.DIGITS times ten to the `point`.
  const point = Number(text.slice(e + 1)) + whole.length - first;
  digits = digits.slice(first, last);
  if (point > MOST) throw new WktError(STATUS.BAD_NUMBER, null, `${short(text)} is too large`);
  if (point < -MOST) throw new WktError(STATUS.BAD_NUMBER, null, `${short(text)} has too many places`);
  if (point <= 0) return `${sign}0.${'0'.repeat(-point)}${digits}`;
  return `${sign}${digits.slice(0, point).padEnd(point, '0')}${point < digits.length ? '.' : ''}${digits.slice(point)}`;
}

function numberOf(value) {
  if (value instanceof NumberText) return plainNumber(value.text);
  if (typeof value === 'bigint') return value.toString();
  if (Number.isFinite(value)) return plainNumber(String(value));
  throw new GeoJSONError('a position has a number that is none');
}

function listOf(value, what) {
  if (!Array.isArray(value)) throw new GeoJSONError(`${what} is no list`);
  return value;
}

/** What all positions of one geometry have in common. */
class Positions {
  width = 0;

  /** A position as a coordinate. */
  text(position) {
    const { length } = listOf(position, 'a position');
    if (length !== 2 && length !== 3) throw new GeoJSONError(`a position has two numbers, or three, and not ${length}`);
    if (this.width !== 0 && this.width !== length) throw new GeoJSONError('some positions of a geometry have two numbers, and some three');
    this.width = length;
    let text = numberOf(position[0]);
    for (let i = 1; i < length; i++) text += ` ${numberOf(position[i])}`;
    return text;
  }

  /** Lists of positions, so deep, in parentheses. */
  nested(value, depth) {
    const items = listOf(value, 'coordinates');
    if (items.length === 0) return 'EMPTY';
    // Not by map, which passes over what a list lacks.
    const parts = [];
    for (const item of items) parts.push(depth === 1 ? this.text(item) : this.nested(item, depth - 1));
    return `(${parts.join(',')})`;
  }
}

const LEVELS = { LineString: 1, Polygon: 2, MultiPoint: 1, MultiLineString: 2, MultiPolygon: 3 };

function flatText(kind, coordinates) {
  const positions = new Positions();
  let body;
  if (kind !== 'Point') body = positions.nested(coordinates, LEVELS[kind]);
  else body = listOf(coordinates, 'coordinates').length === 0 ? 'EMPTY' : `(${positions.text(coordinates)})`;
  const z = positions.width === 3;
  return { text: `${KIND_WORDS[KINDS.indexOf(kind)]}${z ? ' Z' : ''} ${body}`, z };
}

function kindOf(value) {
  const kind = value === null || typeof value !== 'object' ? undefined : value.type;
  if (KINDS.includes(kind)) return kind;
  if (kind === 'Feature' || kind === 'FeatureCollection') throw new GeoJSONError(`a ${kind} is no geometry, and holds some`);
  throw new GeoJSONError('this is no geometry of GeoJSON');
}

/**
 * A text of a geometry of GeoJSON: an object, or what `parseExact` made of one. A geometry has Z where its positions have
 * three numbers; a collection, where each of its members has it. It takes no stack for nesting.
 */
export function textOfGeoJSON(geometry) {
  const out = [];
  const opened = []; // collections that aren't closed yet
  const within = new Set();
  let value = geometry;
  for (;;) {
    const kind = kindOf(value);
    if (kind === 'GeometryCollection') {
      if (within.has(value)) throw new TypeError('a collection that holds itself');
      within.add(value);
      opened.push({ value, members: listOf(value.geometries, 'geometries'), next: 0, header: out.length, z: true });
      out.push('');
    } else {
      const { text, z } = flatText(kind, value.coordinates);
      out.push(text);
      if (!z && opened.length > 0) opened[opened.length - 1].z = false;
    }
    // The next member, after the end of those collections that have no more.
    while (opened.length > 0 && opened[opened.length - 1].next === opened[opened.length - 1].members.length) {
      const { value: closed, members, header, z } = opened.pop();
      within.delete(closed);
      const word = `GEOMETRYCOLLECTION${z && members.length > 0 ? ' Z' : ''}`;
      out[header] = members.length > 0 ? `${word}(` : `${word} EMPTY`;
      if (members.length > 0) out.push(')');
      if (opened.length > 0 && !(z && members.length > 0)) opened[opened.length - 1].z = false;
    }
    if (opened.length === 0) return out.join('');
    const open = opened[opened.length - 1];
    if (open.next > 0) out.push(',');
    value = open.members[open.next++];
  }
}
