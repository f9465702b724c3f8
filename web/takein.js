// Texts in other clothes: GeoJSON, a column of a CSV, quotes, a byte order mark. What is there is said; a button turns it.
import { GeoJSONError } from '../javascript/src/index.js';
import { parseExact } from '../javascript/src/json.js';
import { firstWord, isKind, piecesOf } from './split.js';

/** So much of a text is looked at, and so many records of it. */
export const LOOKED = 16384;
/** The longest file that is turned: it stands in memory as a whole. */
export const TURNED = 128 << 20;
const RECORDS = 50;
const MARK = '\ufeff';

/** The delimiters of a CSV: the one that gives a column of texts is taken. */
const DELIMITERS = [',', ';', '\t', '|'];

/** How many parentheses a cell leaves open. */
function openIn(cell) {
  let depth = 0;
  for (const c of cell) depth += c === '(' ? 1 : c === ')' ? -1 : 0;
  return depth;
}

/** A cell without what the dialect srid leaves out. */
const withoutSrid = (cell) => cell.trim().replace(/^srid=[0-9]{1,9};/i, '');

/** Whether a cell is a text, to the end of its parentheses. */
function isText(cell) {
  const text = withoutSrid(cell);
  return isKind(firstWord(text)) && (/\bempty$/i.test(text) || (text.endsWith(')') && openIn(text) === 0));
}

/** Whether a delimiter cuts a text: then it is none. */
const isCut = (cell) => isKind(firstWord(withoutSrid(cell))) && openIn(cell) > 0;

/** Records of a CSV (RFC 4180), each with its cells, its line, and whether a quote isn't closed. A quote inside of a cell is doubled. */
export function* records(text, delimiter) {
  let [at, line] = [0, 1];
  while (at < text.length) {
    const cells = [];
    const first = line;
    let open = false;
    for (;;) {
      let cell = '';
      if (text[at] === '"') {
        open = true;
        for (at++; at < text.length; at++) {
          const end = text.indexOf('"', at);
          cell += text.slice(at, end < 0 ? text.length : end);
          at = end < 0 ? text.length : end + 1;
          open = end < 0 || text[at] === '"';
          if (text[at] !== '"') break;
          cell += '"';
        }
      }
      const from = at;
      while (at < text.length && text[at] !== delimiter && text[at] !== '\n') at++;
      cells.push(cell + text.slice(from, at));
      if (text[at] !== delimiter) break;
      at++;
    }
    for (let i = cells.reduce((n, cell) => n + cell.split('\n').length - 1, 0); i > 0; i--) line++;
    line++;
    at++;
    const last = cells[cells.length - 1];
    if (last.endsWith('\r')) cells[cells.length - 1] = last.slice(0, -1);
    yield { cells, line: first, open };
  }
}

/** The columns of texts that a CSV has. `cut`: its last record isn't whole. */
function columnsOf(text, delimiter, cut) {
  if (!text.includes(delimiter)) return [];
  const isNone = (cells) => /^\s*srid=/i.test(cells[0]) || cells.some(isCut);
  const found = [];
  for (const { cells } of records(text, delimiter)) {
    if (found.length > 0 && isNone(found.at(-1))) return []; // the record at the end may be cut
    if (cells.some((cell) => cell.trim() !== '')) found.push(cells);
    if (found.length > RECORDS) break;
  }
  if (cut && found.length <= RECORDS) found.pop();
  const width = Math.max(0, ...found.map((cells) => cells.length));
  if (width < 2 || found.some(isNone)) return [];
  const header = found.length > 1 && !found[0].some(isText) ? found[0] : null;
  const rows = header ? found.slice(1) : found;
  return Array.from({ length: width }, (_, i) => i)
    .filter((i) => {
      const filled = rows.map((cells) => cells[i] ?? '').filter((cell) => cell.trim() !== '');
      return filled.filter(isText).length * 2 > filled.length;
    })
    .map((column) => ({ form: 'csv', delimiter, column, header: Boolean(header), name: header?.[column]?.trim() || `${column + 1}` }));
}

/** A line without its quotes, and the comma or semicolon behind them; null where it has none. */
function unquoted(line) {
  const text = line.trim().replace(/[,;]$/, '').trim();
  const quote = text[0];
  if (!['"', "'", '`'].includes(quote) || text.length < 2 || !text.endsWith(quote)) return null;
  return text.slice(1, -1).replaceAll(quote + quote, quote);
}

function isQuoted(text, cut) {
  const lines = text.split('\n', RECORDS + 1);
  if (cut && lines.length <= RECORDS) lines.pop();
  const filled = lines.filter((line) => line.trim() !== '');
  return filled.length > 0 && filled.every((line) => isKind(firstWord(unquoted(line) ?? '')));
}

const isGeoJSON = (text) => /^[\s\x1e]*[[{]/.test(text) && /"(type|coordinates|geometry)"\s*:/.test(text);

/**
 * What a text is that isn't well-known text as it stands, by its front: forms, each with what `turned` needs. `cut`: the
 * text is longer than that. A byte order mark in front of another form is taken off with it.
 */
export function formsOf(front, cut) {
  const marked = front[0] === MARK;
  const text = marked ? front.slice(1) : front;
  if (isGeoJSON(text)) return [{ form: 'geojson' }];
  if (isQuoted(text, cut)) return [{ form: 'quotes' }];
  for (const delimiter of DELIMITERS) {
    const columns = columnsOf(text, delimiter, cut);
    if (columns.length > 0) return columns;
  }
  return marked ? [{ form: 'mark' }] : [];
}

/** All geometries of a value of GeoJSON, each with the number of its feature. */
function* geometriesOf(value) {
  const type = value === null || typeof value !== 'object' ? '' : value.type;
  const features = type === 'FeatureCollection' ? value.features : Array.isArray(value) ? value : [value];
  if (!Array.isArray(features)) throw new GeoJSONError('features is no list');
  for (const it of features) yield it !== null && typeof it === 'object' && it.type === 'Feature' ? it.geometry : it;
}

/** A text of GeoJSON, or lines each of which is one; RFC 8142 has a record separator before each. */
function values(text) {
  try {
    return [parseExact(text)];
  } catch (error) {
    const lines = text.split('\n').map((line) => line.replace('\u001e', '').trim()).filter(Boolean);
    try {
      if (lines.length > 1 || text.includes('\u001e')) return lines.map(parseExact);
    } catch {
      // It is no GeoJSON by lines either: what is wrong with the whole is said.
    }
    throw error;
  }
}

function ofGeoJSON(text, wkt, places) {
  const out = { texts: [], lines: [], left: [] };
  let n = 0;
  for (const value of values(text)) {
    for (const geometry of geometriesOf(value)) {
      n++;
      if (geometry === null || geometry === undefined) {
        out.left.push(`feature ${n}: it has no geometry`);
        continue;
      }
      try {
        out.texts.push(wkt.fromGeoJSON(geometry, { places }));
        out.lines.push(n);
      } catch (error) {
        out.left.push(`feature ${n}: ${error.message}`);
      }
    }
  }
  return out;
}

function ofCsv(text, { delimiter, column, header }) {
  const out = { texts: [], lines: [], left: [] };
  let first = header;
  for (const { cells, line, open } of records(text, delimiter)) {
    const cell = cells[column] ?? '';
    if (open) {
      out.left.push(`line ${line}: a quote that is opened in this row isn’t closed`);
    } else if (!first && cell.trim() !== '') {
      out.texts.push(cell);
      out.lines.push(line);
    } else if (!first && cells.some((it) => it.trim() !== '')) {
      out.left.push(`line ${line}: the cell is empty`);
    }
    first = false;
  }
  return out;
}

function ofQuotes(text) {
  const lines = text.split('\n').map((line, i) => [unquoted(line) ?? line, i + 1]).filter(([line]) => line.trim() !== '');
  return { texts: lines.map(([line]) => line), lines: lines.map(([, n]) => n), left: [] };
}

function ofPieces(text) {
  const pieces = piecesOf(text, 'auto');
  return { texts: pieces.map((piece) => piece.text), lines: pieces.map(({ line }) => line), left: [] };
}

/** Words for an error by which something isn't read. */
export const notReadWords = (error) => (['NotReadableError', 'NotFoundError'].includes(error?.name)
  ? 'The browser can’t read it. Was it changed or removed, or is it a folder?' : String(error?.message ?? error));

/** The texts that such a text has, one on each line, the lines that they had, and words about what was left out. */
export function turned(text, form, wkt, places) {
  const whole = text[0] === MARK ? text.slice(1) : text;
  const { texts, lines, left } = {
    mark: () => (form.pieces ? ofPieces(whole) : { texts: whole.split('\n'), lines: null, left: [] }),
    geojson: () => ofGeoJSON(whole, wkt, places),
    quotes: () => ofQuotes(whole),
    csv: () => ofCsv(whole, form),
    pieces: () => ofPieces(text),
  }[form.form]();
  return { texts: texts.map((it) => it.replaceAll('\n', ' ')), lines, left };
}
