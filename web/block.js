// Answers some lines of a file at once, counts what is in them, and says why lines are refused.
import { STATUS, WktError } from '../javascript/src/index.js';
import { joined } from '../javascript/src/lines.js';
import { printable } from '../javascript/src/printable.js';
import { withBox } from './dialects.js';
import { WORDS, lineEnd } from './repeats.js';
import { agreed } from './split.js';
import { Tally } from './tally.js';

/** A longer text is answered for itself: that is faster. Where it is refused, more of it isn't looked at. */
const LONG = 1 << 20;
const TAB = 9, FEED = 10, RETURN = 13, SPACE = 32, REFUSED = 114; // `refused` alone begins with a small letter
const LETTER = 65, OPEN = 40, CLOSE = 41;
const refusedLine = new TextEncoder().encode('refused\n');
const latin1 = new TextDecoder('latin1');

/** How many refusals of a file are listed, and how many are asked for their reasons. */
export const LISTED = 100;
export const ASKED = 20000;

const { LAST_REFUSAL, NOT_UTF8, NOT_WHOLE } = STATUS;

/** Whether an error says that a text is refused. */
export const isRefusal = (error) =>
  error instanceof WktError && (error.status <= LAST_REFUSAL || error.status === NOT_UTF8 || error.status === NOT_WHOLE);

/** The cause of a refusal, as a stable word. */
export const causeOf = ({ place, status }) => place?.code ?? (status === NOT_UTF8 ? 'not_utf8' : `status_${status}`);

/** Why a text is refused, in a sentence without the place. The Rust crate's message may be about another place. */
export const sentenceIn = ({ cause }) => cause.slice(cause.indexOf(': ') + 2);

const utf8 = new TextDecoder('utf-8', { ignoreBOM: true });

/** The byte, from 1 on, at which a line stops being UTF-8: the first of what is no character. */
function notUtf8At(bytes) {
  const isUtf8 = (from, to, stream) => {
    try {
      new TextDecoder('utf-8', { fatal: true }).decode(bytes.subarray(from, to), { stream });
      return true;
    } catch {
      return false;
    }
  };
  let good = 0; // before it all are characters
  for (let to = LONG; to < bytes.length && isUtf8(good, to, true); to += LONG) {
    good = to;
    while ((bytes[good] & 0xc0) === 0x80) good--;
  }
  // So many more begin characters, of which the last may be none.
  const from = good;
  const begun = agreed(Math.min(bytes.length - from, 2 * LONG), (_, more) => isUtf8(from, from + more, true));
  good += begun;
  while (!isUtf8(from, good, false)) good--;
  return good + 1;
}

/** What a line of a file says at a place, with white space cut short. */
function foundAt(bytes, { start, stop }) {
  return utf8.decode(bytes.subarray(start, Math.min(stop, start + 200)));
}

/** The refused lines of a part of a file. */
export class Refusals {
  count = 0;

  #wkt;
  #reading;
  #ask;
  #whys = [];

  /** `ask`: of how many the reasons are asked. */
  constructor(wkt, reading, ask) {
    this.#wkt = wkt;
    this.#reading = reading;
    this.#ask = ask;
  }

  /** How many there are, and of the first the line, column, expected, cause, found, hint, message, caret. */
  given() {
    return { count: this.count, whys: this.#whys };
  }

  /** Takes a refused line, without its line feed. */
  add(bytes, line) {
    this.count++;
    if (this.count > this.#ask) return;
    // A carriage return at the end of a line is a part of its end.
    const { down, ...why } = this.#why(bytes[bytes.length - 1] === RETURN ? bytes.subarray(0, bytes.length - 1) : bytes);
    this.#whys.push({ line: line + down, ...why });
  }

  #why(bytes) {
    try {
      // The error of a whole text: `explain` takes what follows a geometry for right.
      this.#wkt.canonical(bytes, { ...this.#reading, whole: true });
    } catch (error) {
      if (!isRefusal(error)) throw error;
      if (error.place) {
        const { line, column, expected, caret } = error.place;
        const cause = causeOf(error);
        const hint = withBox(error.place.hint, cause, this.#reading.dialect);
        const why = { column, expected, cause, hint, message: sentenceIn(error.place), caret };
        return { down: line - 1, ...why, found: foundAt(bytes, error.place) };
      }
      const at = notUtf8At(bytes);
      const caret = `${printable(utf8.decode(bytes.subarray(0, Math.min(at, 60))))}\n`;
      const hint = `byte ${at} of the line is not UTF-8`;
      return { down: 0, column: at, expected: 'UTF-8', cause: causeOf(error), hint, message: error.words, caret, found: '' };
    }
    throw new Error('a refused line was read');
  }
}

/** Whether an answer is a kind and EMPTY: it has no parenthesis. */
function isEmpty(answers, at) {
  let i = at;
  while (answers[i] >= LETTER || answers[i] === SPACE) i++;
  return answers[i] === FEED;
}

/** Where the geometry ends that an accepted line begins with. Its parentheses are balanced, and nothing else has any. */
function geometryEnd(bytes, from) {
  let depth = 0;
  for (let i = from; ; i++) {
    const c = bytes[i];
    if (c > CLOSE) continue;
    if (c === OPEN) depth++;
    else if (c === CLOSE && --depth === 0) return i + 1;
  }
}

/** The same, where its canonical text is a kind and EMPTY: its own may have parentheses, as POLYGON(EMPTY) and POINT(nan nan). */
function emptyEnd(bytes, from) {
  const line = latin1.decode(bytes.subarray(from, lineEnd(bytes, from)));
  const [word, open] = [line.toUpperCase().indexOf('EMPTY'), line.indexOf('(')];
  return open >= 0 && (word < 0 || open < word) ? geometryEnd(bytes, from) : from + word + 'EMPTY'.length;
}

/** The first place from `from` on that is no white space, or a line feed. */
function passSpace(bytes, from) {
  let at = from;
  while (bytes[at] === SPACE || bytes[at] === RETURN || bytes[at] === TAB) at++;
  return at;
}

export class Blocks {
  #wkt;
  #reading;
  #tally;
  #words = new Int32Array(WORDS * 4096); // what `lines` finds, from one call to the next

  constructor(wkt, { reading, seeds }) {
    this.#wkt = wkt;
    this.#reading = reading;
    this.#tally = new Tally(seeds);
  }

  /** What was counted so far, as it can be posted. */
  counted() {
    const { kinds, points, ranges, sample } = this.#tally;
    return { kinds, points, ranges, sample: Float64Array.from(sample) };
  }

  /** The canonical text, with a line feed, of a line. */
  lineOf(bytes) {
    return this.#wkt.canonicalBytes(bytes, { ...this.#reading, feed: true });
  }

  /** One text in all, over lines or a long one. `ask`: of how many refusals the reasons are asked. */
  one(bytes, ask) {
    const refusals = new Refusals(this.#wkt, this.#reading, ask);
    try {
      const answers = this.lineOf(bytes);
      this.#tally.add(answers, 0);
      return { answers, words: Int32Array.of(this.#tally.low, this.#tally.high, 0, 0, 1), lines: 1, blank: 0, refusals: refusals.given() };
    } catch (error) {
      if (!isRefusal(error)) throw error;
    }
    const blank = passSpace(bytes, 0) === bytes.length;
    if (!blank) refusals.add(bytes, 1);
    return { answers: refusedLine.slice(), words: new Int32Array(0), lines: 1, blank: Number(blank), refusals: refusals.given() };
  }

  /** The answers to lines: those that are refused as they stand are read one by one in the dialects that are asked for. */
  #answers(bytes) {
    const { places, dialect } = this.#reading;
    const answers = this.#wkt.lines(bytes, { places });
    if (dialect === '') return answers;
    const parts = [];
    let done = 0;
    for (let at = 0, from = 0; at < answers.length;) {
      const [end, to] = [lineEnd(answers, at), lineEnd(bytes, from)];
      const line = bytes.subarray(from, to);
      if (answers[at] === REFUSED && this.#wkt.reads(line, this.#reading)) {
        parts.push(answers.subarray(done, at), this.lineOf(line));
        done = end + 1;
      }
      [at, from] = [end + 1, to + 1];
    }
    return done > 0 ? joined([...parts, answers.subarray(done)]) : answers;
  }

  /** Lines, the last of which may end without a line feed. What is saved of them is `kept`, where that isn't `answers`. */
  lines(bytes, ask) {
    const first = bytes.length > LONG ? lineEnd(bytes, 0) : 0;
    if (first > 0 && first >= bytes.length - 1) return this.one(bytes.subarray(0, first), ask);
    const answers = this.#answers(bytes);
    const refusals = new Refusals(this.#wkt, this.#reading, ask);
    const tally = this.#tally;
    let words = this.#words;
    let n = 0, lines = 0, blank = 0, done = 0, from = 0;
    const kept = [];
    for (let at = 0; at < answers.length;) {
      lines++;
      const accepted = answers[at] !== REFUSED;
      // What follows the geometry, or the line, is to be white space.
      const rest = passSpace(bytes, !accepted ? from : isEmpty(answers, at) ? emptyEnd(bytes, from) : geometryEnd(bytes, from));
      const whole = rest === bytes.length || bytes[rest] === FEED;
      const to = whole ? rest : lineEnd(bytes, rest);
      let end;
      if (accepted && whole) {
        end = tally.add(answers, at);
        if (n === words.length) words = this.#words = grown(words);
        words[n] = tally.low;
        words[n + 1] = tally.high;
        words[n + 2] = at;
        words[n + 3] = from;
        words[n + 4] = lines;
        n += WORDS;
      } else {
        end = lineEnd(answers, at);
        if (whole) blank++;
        else refusals.add(bytes.subarray(from, to), lines);
        if (accepted) {
          kept.push(answers.subarray(done, at), refusedLine);
          done = end + 1;
        }
      }
      at = end + 1;
      from = to + 1;
    }
    const edited = kept.length > 0 ? new Blob([...kept, answers.subarray(done)]) : undefined;
    return { answers, words: words.slice(0, n), lines, blank, refusals: refusals.given(), kept: edited };
  }
}

function grown(words) {
  const more = new Int32Array(2 * words.length);
  more.set(words);
  return more;
}
