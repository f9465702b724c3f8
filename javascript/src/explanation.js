// Where a text is refused, in words.
import { EXPECTED_WORDS, HINTS, HINT_WORDS } from './names.js';
import { wordsOf } from './errors.js';
import { printable } from './printable.js';

// How many characters of a line are shown, and in how many bytes they surely are: a word has 200 at most, of 4 bytes.
const WIDTH = 72;
const AROUND = 1000;
/** How many bytes of a word are looked at: a longer one has too many places to count. */
export const LONGEST = 1 << 20;
// White space of the grammar. Other spaces are refused, so they are shown.
const SPACES = [' ', '\n', '\r', '\t'];

// A text may be long, so no regular expression runs over it: each step here looks for a byte, or counts.

/** The characters of a line as they are shown. A tab stays one, since it moves the mark below it as far. */
const charactersOf = (text) => Array.from(text.split('\t').map(printable).join('\t'));

/** How many characters stand from one place of a text to another. */
function count(text, from, to) {
  let n = to - from;
  for (let i = from; i + 1 < to; i++) {
    const unit = text.charCodeAt(i);
    if (unit >= 0xd800 && unit < 0xdc00) {
      n--;
      i++;
    }
  }
  return n;
}

/** Where the line begins in which a place is, and its number, in a string (a feed is '\n') or in bytes (it is 10). */
function lineOf(text, at, feed) {
  let line = 1;
  let first = 0;
  for (let i = text.indexOf(feed); i >= 0 && i < at; i = text.indexOf(feed, i + 1)) {
    line++;
    first = i + 1;
  }
  return { line, first };
}

/** The line of a text around a place, and a mark below the place. */
function caretOf(text, start, stop) {
  const first = start === 0 ? 0 : text.lastIndexOf('\n', start - 1) + 1;
  const feed = text.indexOf('\n', start);
  const end = feed < 0 ? text.length : feed;
  // A carriage return at the end of a line is a part of its end.
  const last = end > Math.max(start, stop) && text[end - 1] === '\r' ? end - 1 : end;
  // A character is at most two units, so these hold all that can be shown, and one unit more, which may be half of one.
  let before = charactersOf(text.slice(Math.max(first, start - 2 * WIDTH - 1), start));
  let after = charactersOf(text.slice(start, Math.min(last, start + 2 * WIDTH + 1)));
  const marked = charactersOf(text.slice(start, Math.min(last, stop, start + 2 * WIDTH + 1))).length;
  let dots = '';
  if (before.length + after.length > WIDTH) {
    if (before.length > WIDTH / 2) {
      before = before.slice(-WIDTH / 2);
      dots = '...';
    }
    after = after.slice(0, WIDTH - before.length);
  }
  const under = [...dots, ...before].map((c) => (c === '\t' ? '\t' : ' ')).join('');
  return `${dots}${before.join('')}${after.join('')}\n${under}${'^'.repeat(Math.max(1, Math.min(marked, after.length)))}`;
}

/** A word as it is shown, and not too long for a sentence. */
export function short(word) {
  // Two units may be one character.
  const characters = Array.from(printable(word.slice(0, 81)));
  return characters.length < 40 ? characters.join('') : characters.slice(0, 37).join('') + '...';
}

/** How many digits a number has behind its point, as far as the last that isn't 0, without an exponent. */
function placesIn(number) {
  const point = number.indexOf('.');
  let end = number.length;
  while (end > 0 && (number[end - 1] === '0' || number[end - 1] === '.')) end--;
  // Zeros in front of the point count where an exponent moves it.
  return point < 0 ? end - number.length : end > point ? end - point - 1 : end - point;
}

/** The places of a number that may have an exponent, in words. */
function placesInWords(number) {
  const e = Math.max(number.indexOf('e'), number.indexOf('E'));
  const [digits, exponent] = e < 0 ? [number, '0'] : [number.slice(0, e), number.slice(e + 1)];
  return exponent.length > 9 || number.length === LONGEST ? 'too many' : Math.max(0, placesIn(digits) - Number(exponent));
}

/** The words of a hint about a word of the text. The one with a number says which number has too many places. */
export function hintWords(hint, word, places) {
  const words = HINTS[hint] ?? '';
  return words.includes('%u') ? `${short(word)} has ${placesInWords(word)} places, at most ${places} are allowed` : words;
}

/** Why a text is refused as one stable word, by the numbers of the hint, 0 where there is none, and of what was expected. */
export const codeOf = (hint, expected) =>
  (hint === 0 ? `expected_${EXPECTED_WORDS[expected] ?? 'other'}` : HINT_WORDS[hint] ?? `hint_${hint}`);

function causeOf({ line, column, expected, hint }, text, start, stop) {
  const place = line > 1 ? `at line ${line}, column ${column}` : `at ${column}`;
  if (hint) return `${place}: ${hint}`;
  const there = Array.from(text.slice(start, Math.min(stop, start + 400))).slice(0, 200);
  const words = there.map((c) => (SPACES.includes(c) ? ' ' : c)).join('').split(' ');
  const said = short(words.filter((word) => word !== '').join(' '));
  return `${place}: ${expected} was expected, ${said ? `and not ${said}` : 'but the text ends'}`;
}

/** A place with its words: it is from `start` to before `stop` in `text`, which holds what is around it. */
const inWords = (place, text, start, stop) => ({ ...place, cause: causeOf(place, text, start, stop), caret: caretOf(text, start, stop) });

/** Why a text is refused, and where: units `start` to `stop` of a string. */
export function explanation(text, status, start, stop, { expected, hint, code }) {
  const { line, first } = lineOf(text, start, '\n');
  const column = count(text, first, start) + 1;
  return inWords({ status, message: wordsOf(status), start, stop, expected, hint, code, line, column }, text, start, stop);
}

/** The same of bytes of UTF-8. A string can't hold all that bytes can, so only what is around the place is made one. */
export function explanationOfBytes(bytes, status, start, stop, { expected, hint, code }) {
  const decoder = new TextDecoder('utf-8', { ignoreBOM: true });
  const { line, first } = lineOf(bytes, start, 10);
  let column = 1;
  for (let i = first; i < start; i++) if ((bytes[i] & 0xc0) !== 0x80) column++;
  let [from, to] = [Math.max(first, start - AROUND), Math.min(bytes.length, start + AROUND)];
  while (from > first && (bytes[from] & 0xc0) === 0x80) from--;
  while (to < bytes.length && (bytes[to] & 0xc0) === 0x80) to++;
  const [before, there, after] = [[from, start], [start, Math.min(stop, to)], [Math.min(stop, to), to]]
    .map((range) => decoder.decode(bytes.subarray(...range)));
  const place = { status, message: wordsOf(status), start, stop, expected, hint, code, line, column };
  return inWords(place, before + there + after, before.length, before.length + there.length);
}
