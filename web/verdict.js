// Whether the text is accepted, and why it isn't.
import { STATUS } from '../javascript/src/index.js';
import { lineOf } from './answers.js';
import { $, count, element, fill, listed, number, withCode, withoutCode, wordIn } from './elements.js';
import { field } from './field.js';
import { chosenRow, state } from './state.js';

const line = (d, width) => `<svg viewBox="0 0 16 16"><path d="${d}" fill="none" stroke="currentColor" stroke-width="${width}" stroke-linecap="round" stroke-linejoin="round"/></svg>`;
const ICONS = { good: line('M3 8.5 6.5 12 13 4.5', 2.2), bad: line('m4 4 8 8m0-8-8 8', 2.2), idle: line('M3 4h10M3 8h7M3 12h9', 2) };

/** How long the answer has to stand, in milliseconds, before it is spoken: once, and not at each key. */
const QUIET = 700;
let timer = 0;

/** Speaks words, for those who don't see the page, when nothing else was said for a while. */
export function speak(words) {
  clearTimeout(timer);
  timer = setTimeout(() => {
    fill($('spoken'), words);
  }, QUIET);
}

/** Shows words at the head of the answer. `why` may be nodes. */
export function say(kind, words, ...why) {
  if ($('verdict').className !== `verdict ${kind}`) {
    $('verdict').className = `verdict ${kind}`;
    $('badge').innerHTML = ICONS[kind];
  }
  fill($('say'), words);
  fill($('why'), ...why);
  speak(`${words}. ${$('why').textContent}`);
}

const capital = (words) => words[0].toUpperCase() + words.slice(1);

/** ` with Z and M`, for a geometry that has them. */
export function withAxes(dimension) {
  const axes = dimension.slice(2).split('');
  return axes.length > 0 ? ` with ${axes.join(' and ')}` : '';
}

/** What an accepted geometry has, in words. */
function holds(summary) {
  if (summary.points === 0) return 'It has no point.';
  const parts = [count(summary.points, 'point')];
  if (summary.kind === 'GeometryCollection') parts.push(count(summary.members, 'member'));
  if (summary.polygons > 1) parts.push(count(summary.polygons, 'polygon'));
  if (summary.holes > 0) parts.push(count(summary.holes, 'hole'));
  return `It has ${listed(parts)}.`;
}

/** What stands at the place of a refusal, as nodes. */
function found({ text, place }) {
  if (place.start >= place.stop) return ['The text ends there'];
  return ['It says ', element('code', {}, wordIn(text.slice(place.start, Math.min(place.stop, place.start + 60))))];
}

/** Why a row is refused, as nodes. */
function reason(row, many) {
  if (!row.place) return [`${capital(row.words)}.`];
  const where = many ? [`Line ${number(lineOf(row))}, column ${number(row.place.column)}. `] : [];
  return [...where, ...found(row), ', and ', ...withCode(row.place.expected), ' was expected.'];
}

/** A word for those whose lines were taken for one text. */
const perLine = (row) => (row.status === STATUS.NOT_WHOLE && row.place.line > 1 ? [' If each line is a geometry, choose “One per line”.'] : []);

function sayOne(row) {
  if (row.accepted) say('good', `Accepted: ${row.facts.kind}${withAxes(row.facts.dimension)}`, holds(row.facts));
  else if (row.place) say('bad', `Refused at line ${number(lineOf(row))}, column ${number(row.place.column)}`, ...reason(row, false), ...perLine(row));
  else say('bad', 'Refused', ...reason(row, false));
}

/** How many lines name a geometry of an earlier line, in words. */
export const repeatsInWords = (n) => (n === 0 ? 'No geometry is repeated.' : `${count(n, 'line repeats', 'lines repeat')} the geometry of an earlier line.`);

function sayMany(row) {
  const { rows, counted: { refused, repeats, spread } } = state;
  const unit = spread ? 'text' : 'line';
  if (refused === 0) say('good', `All ${count(rows.length, unit)} accepted`, repeatsInWords(repeats));
  else say('bad', `${number(refused)} of ${count(rows.length, unit)} refused`, ...(row.accepted ? [`Line ${row.line} is accepted.`] : reason(row, true)));
}

/** The line with the mark, and the hint, of a row that is refused. The library’s message may be about another place. */
function showPlace(row) {
  const place = row && !row.accepted ? row.place : null;
  // Each is set once: an attribute that comes and goes has the page laid out anew.
  $('caret').hidden = !place;
  $('hint').hidden = !place?.hint;
  if (!place) return;
  const [text, mark] = place.caret.split('\n');
  fill($('caret'), `${text}\n`, element('b', {}, `${mark} ${withoutCode(place.expected)} was expected`));
  fill($('hint'), element('b', {}, 'Why: '), ...withCode(place.hint || ''), '.');
}

export function showVerdict() {
  if (state.file || !state.settled) return; // a file that is open says its own
  const row = chosenRow();
  if (!row) say('idle', 'Nothing to check yet', 'Type or paste a text, choose an example, or drop a file anywhere on the page.');
  else if (state.rows.length === 1) sayOne(row);
  else sayMany(row);
  showPlace(row);
  const { refused } = state.counted;
  $('next').hidden = refused === 0;
  fill($('next'), refused > 1 ? 'Next refusal' : 'Show the place');
  field.invalid(refused > 0);
}
