// The canonical text of the chosen row, as WKT and as GeoJSON, and what it holds.
import { geoJSONOf } from '../javascript/src/geojson.js';
import { $, count, element, fill, number } from './elements.js';
import { chosenRow, state } from './state.js';

/** More characters than this aren't shown; they are copied. */
const SHOWN = 20000;

const format = () => $('format').querySelector(':checked').value;

/** The chosen row's answer in the chosen format: `text`, or `error` where GeoJSON has no form for it. */
export function answerText() {
  const row = chosenRow();
  if (format() === 'wkt') return { text: row.canonical };
  try {
    return { text: geoJSONOf(row.canonical, 'drop') };
  } catch (error) {
    return { text: '', error: error.message };
  }
}

const plural = (n, one, many) => (n === 1 ? one : many);

/** What other programs may say of a text that is accepted here. */
function notes(summary) {
  const { open, short } = summary;
  const said = [];
  if (open > 0) said.push(`${count(open, 'ring')} ${plural(open, 'doesn’t end where it begins', 'don’t end where they begin')}. PostGIS and GEOS refuse that.`);
  if (short > 0) said.push(`${count(short, 'line or ring', 'lines or rings')} ${plural(short, 'has', 'have')} too few points: a ring needs four, a line two.`);
  if (format() === 'geojson' && summary.dimension.endsWith('M')) said.push('GeoJSON has no m: it is left out.');
  return said;
}

const ringsName = ({ polygons, lines }) => (polygons === 0 ? 'Lines' : lines ? 'Rings and lines' : 'Rings');

/** Bounds as words: `x 0 to 4 · y 0 to 4`. */
export const boundsInWords = (bounds) =>
  Object.entries(bounds).filter(([, ends]) => ends !== null).map(([name, [low, high]]) => `${name} ${low} to ${high}`).join(' · ');

function facts(row) {
  const summary = row.facts;
  const shown = [['Kind', summary.kind], ['Dimension', summary.dimension], ['Points', number(summary.points)]];
  if (summary.srid !== null) shown.push(['SRID', String(summary.srid)]);
  if (summary.polygons > 0) shown.push(['Polygons', number(summary.polygons)]);
  if (summary.rings > 0) shown.push([ringsName(summary), number(summary.rings)]);
  if (summary.kind === 'GeometryCollection') shown.push(['Members', number(summary.members)]);
  if (summary.levels > 1) shown.push(['Nested', `${number(summary.levels)} deep`]);
  if (summary.empty > 0) shown.push(['Empty parts', number(summary.empty)]);
  shown.push(['Length', count(row.canonical.length, 'byte')]);
  const nodes = shown.map(([name, value]) => element('div', {}, element('dt', {}, name), element('dd', {}, value)));
  if (summary.points > 0) {
    nodes.push(element('div', { class: 'wide' }, element('dt', {}, 'Bounds'), element('dd', { class: 'mono' }, boundsInWords(summary.bounds))));
  }
  return nodes;
}

/** Shows what all lines hold together. */
export function takeTotals({ geometries, points, bounds }) {
  $('totals').hidden = geometries < 2;
  fill($('totals'), [count(geometries, 'geometry', 'geometries'), count(points, 'point'), boundsInWords(bounds)].filter(Boolean).join(' · '));
}

export function showCanonical() {
  const row = chosenRow();
  $('canonical-card').hidden = !row || !row.accepted;
  if (!row || !row.accepted) return;
  const { text, error } = answerText();
  const name = format() === 'wkt' ? 'Canonical text' : 'GeoJSON';
  fill($('h-canonical'), state.rows.length > 1 ? `${name} of line ${row.line}` : name);
  $('out').setAttribute('aria-label', name);
  fill($('out'), error ?? (text.length > SHOWN ? `${text.slice(0, SHOWN)} … and ${count(text.length - SHOWN, 'character')} more` : text));
  $('copy').disabled = Boolean(error);
  fill($('facts'), ...facts(row));
  const said = notes(row.facts);
  $('notes').hidden = said.length === 0;
  fill($('notes'), 'Other programs may object:', element('ul', {}, ...said.map((words) => element('li', {}, words))));
}
