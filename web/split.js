// Which lines of a text are one geometry.
import { KIND_WORDS } from '../javascript/src/names.js';

const KINDS = new Set(KIND_WORDS);
const AFTER_HEADER = new Set(['Z', 'M', 'ZM', 'EMPTY']);
const OPEN = 40, CLOSE = 41;

/** White space is that of the grammar: a line of other spaces, as the no-break space, is refused, and not blank. */
const isSpace = (c) => c === 32 || c === 10 || c === 13 || c === 9;
const isBlank = (text) => !/[^ \n\r\t]/.test(text);

/** The letters, in capitals, with which a line begins behind white space. A word that is longer than all kinds is cut. */
export function firstWord(text, from = 0, to = text.length) {
  let start = from;
  while (start < to && isSpace(text.charCodeAt(start))) start++;
  return /^[a-z]*/i.exec(text.slice(start, Math.min(to, start + 30)))[0].toUpperCase();
}

export const isKind = (word) => KINDS.has(word);

/** The first character of a line that is no white space, or ''. */
function firstMark(text, from, to) {
  let at = from;
  while (at < to && isSpace(text.charCodeAt(at))) at++;
  return at < to ? text[at] : '';
}

/** How many more parentheses a line opens than it closes; null where it has none. */
function opened(text, from, to) {
  let [depth, marked] = [0, false];
  for (let i = from; i < to; i++) {
    const c = text.charCodeAt(i);
    if (c > CLOSE || c < OPEN) continue;
    marked = true;
    depth += c === OPEN ? 1 : -1;
  }
  return marked ? depth : null;
}

/** Whether a line goes on with a piece that begins at `begin`, and has `depth` parentheses open; null: it had none yet. */
function goesOn(text, begin, depth, from, to) {
  if (depth !== null && depth <= 0) return false;
  const mark = firstMark(text, from, to);
  if (mark === '') return depth !== null;
  const word = firstWord(text, from, to);
  const first = firstWord(text, begin, from);
  if (depth === null) return KINDS.has(first) && !/\bempty\b/i.test(text.slice(begin, Math.min(from, begin + 200))) && (mark === '(' || AFTER_HEADER.has(word));
  // In a collection a line may begin with a kind, as a geometry of its own does.
  const collection = first === 'GEOMETRYCOLLECTION';
  return word === '' ? collection || '(),+-.0123456789'.includes(mark) : word === 'EMPTY' || word === 'NAN' || (collection && KINDS.has(word));
}

/** Lines, each of which is a piece where it isn't blank. */
function* byLine(text, at, line) {
  for (let offset = at, n = line; offset <= text.length; n++) {
    const feed = text.indexOf('\n', offset);
    const to = feed < 0 ? text.length : feed;
    const piece = text.slice(offset, to);
    if (!isBlank(piece)) yield { text: piece, offset, line: n };
    offset = to + 1;
  }
}

/** A line begins a piece, or goes on with the one before it, as long as that has parentheses open. */
function* byParentheses(text, from, line) {
  let [begin, end, first, depth] = [-1, 0, 0, null];
  for (let at = from, n = line; at <= text.length; n++) {
    const feed = text.indexOf('\n', at);
    const to = feed < 0 ? text.length : feed;
    if (begin >= 0 && goesOn(text, begin, depth, at, to)) {
      const more = opened(text, at, to);
      if (more !== null) depth += more;
      end = to;
    } else if (firstMark(text, at, to) !== '') {
      if (begin >= 0) yield { text: text.slice(begin, end), offset: begin, line: first };
      [begin, end, first, depth] = [at, to, n, opened(text, at, to)];
    }
    at = to + 1;
  }
  if (begin >= 0) yield { text: text.slice(begin, end), offset: begin, line: first };
}

const splitter = (split) => (split === 'lines' ? byLine : byParentheses);

/**
 * The pieces of a text that are answered each for itself: their texts, the places where they begin, and their lines, from
 * 1 on. `split`: `one` piece in all, `lines`, or `auto`.
 */
export function piecesOf(text, split) {
  if (isBlank(text)) return [];
  const pieces = split === 'one' ? [] : [...splitter(split)(text, 0, 1)];
  // What is around a single one belongs to it: then the places are those of the text.
  return split === 'one' || (split === 'auto' && pieces.length === 1) ? [{ text, offset: 0, line: 1 }] : pieces;
}

/** How many characters of so many agree; `part` says whether those from one to before another do. */
export function agreed(length, part) {
  let [low, high] = [0, length];
  while (low < high) {
    const middle = (low + high + 1) >> 1;
    if (part(low, middle)) low = middle;
    else high = middle - 1;
  }
  return low;
}

/** The last of some for which a test holds, as it does for all before it; -1: for none. */
export function lastOf(some, holds) {
  let [low, high] = [0, some.length];
  while (low < high) {
    const middle = (low + high) >> 1;
    if (holds(some[middle])) low = middle + 1;
    else high = middle;
  }
  return low - 1;
}

/**
 * The pieces of a text that was changed: how many of the `old` ones, which are those of the text before in the same split,
 * stand at its front and at its back, the new ones between, and by how many characters and lines the back has moved.
 */
export function changedPieces(before, old, text, split) {
  const whole = () => ({ front: 0, back: 0, pieces: piecesOf(text, split), moved: 0, lines: 0 });
  if (split === 'one' || old.length < 2) return whole();
  const shorter = Math.min(before.length, text.length);
  const from = agreed(shorter, (a, b) => before.slice(a, b) === text.slice(a, b));
  const same = agreed(shorter - from, (a, b) => before.slice(before.length - b, before.length - a) === text.slice(text.length - b, text.length - a));
  const moved = text.length - before.length;
  // A piece that ends right before the change may go on in it now, so it is split anew.
  const last = lastOf(old, (piece) => piece.offset + piece.text.length < from);
  const front = Math.max(0, last);
  const start = last < 0 ? { offset: 0, line: 1 } : old[last];
  const pieces = [];
  let [next, back, lines] = [front, 0, 0];
  for (const piece of splitter(split)(text, start.offset, start.line)) {
    while (next < old.length && old[next].offset + moved < piece.offset) next++;
    if (piece.offset >= text.length - same && old[next]?.offset + moved === piece.offset) {
      [back, lines] = [old.length - next, piece.line - old[next].line];
      break;
    }
    pieces.push(piece);
  }
  if (front + pieces.length + back < 2) return whole();
  // It doesn't, and stays as it was.
  const kept = pieces.length > 0 && pieces[0].text === old[front].text && last >= 0 ? 1 : 0;
  return { front: front + kept, back, pieces: pieces.slice(kept), moved, lines };
}

/**
 * How a file is to be split, of which this is the front: `lines`, `one`, or `pieces`. `cut`: it is longer than that. A
 * first piece that is cut isn't known, and the file is taken for lines.
 */
export function splitOfFront(text, cut) {
  const texts = piecesOf(text, 'auto').map((piece) => piece.text.trim());
  if (texts.length < 2) return cut && !texts[0]?.includes('\n') ? 'lines' : 'one';
  return texts.slice(0, cut ? -1 : undefined).some((it) => it.includes('\n')) ? 'pieces' : 'lines';
}
