// Lines, answered piece by piece.
import { STATUS } from './names.js';
import { WktError } from './errors.js';
import { big } from './engine.js';

const BLOCK = 1 << 20;
// Most lines are no longer than half of these bytes.
const LINE = 1 << 16;
const FEED = 10;

const NONE = new Uint8Array(0);

/** So many bytes, if there is memory for them. */
function bytesOf(size) {
  try {
    return new Uint8Array(size);
  } catch (error) {
    if (error instanceof RangeError) throw new WktError(STATUS.NO_MEMORY);
    throw error;
  }
}

/** The answers to lines that come in chunks. What is left of a line is kept here, so other calls may come between. */
export class LineAnswers {
  #engine;
  #places;
  #line = NONE; // begins with so many bytes of a line
  #length = 0;

  constructor(engine, places) {
    this.#engine = engine;
    this.#places = places;
  }

  /** The answers to all lines that end in this chunk, in pieces. */
  push(chunk) {
    const answers = [];
    let from = 0;
    if (this.#length > 0) {
      const feed = chunk.indexOf(FEED);
      this.#keep(feed < 0 ? chunk : chunk.subarray(0, feed + 1));
      if (feed < 0) return answers;
      this.#finish(false, answers);
      from = feed + 1;
    }
    while (from < chunk.length) {
      // A block of whole lines, or one that is longer.
      let feed = chunk.lastIndexOf(FEED, Math.min(chunk.length, from + BLOCK) - 1);
      if (feed < from) feed = chunk.indexOf(FEED, from);
      if (feed < 0) break;
      this.#answer(chunk.subarray(from, feed + 1), false, answers);
      from = feed + 1;
    }
    if (from < chunk.length) this.#keep(chunk.subarray(from));
    return answers;
  }

  /** The answer to what is left, where the input ends. */
  end() {
    const answers = [];
    if (this.#length > 0) this.#finish(true, answers);
    return answers;
  }

  /** Copies a piece behind what is kept. */
  #keep(piece) {
    const length = this.#length + piece.length;
    if (length > this.#line.length) {
      const longer = bytesOf(this.#length > 0 ? Math.max(length, 2 * this.#line.length) : length);
      longer.set(this.#line.subarray(0, this.#length));
      this.#line = longer;
    }
    this.#line.set(piece, this.#length);
    this.#length = length;
  }

  #finish(last, answers) {
    const line = this.#line.subarray(0, this.#length);
    this.#line = NONE;
    this.#length = 0;
    this.#answer(line, last, answers);
  }

  #answer(lines, last, answers) {
    const engine = this.#engine;
    const { length } = lines;
    engine.reset();
    const at = engine.lay(length);
    engine.bytes.set(lines, at);
    // The answers to n bytes mostly have no more than these. A line whose answer may not fit is answered in a room of its own:
    // one of n bytes surely fits into 2n + 65.
    let most = length + (length >> 3) + 4096;
    let room = Math.min(2 * length + 65, LINE);
    let taken = 0;
    while (taken < length) {
      const before = engine.at;
      const answer = engine.lay(most);
      const line = engine.lay(room);
      const status = engine.call('wkt_lines_some', big(at + taken), big(length - taken), this.#places, last ? 1 : 0,
        big(line), big(room), big(answer), big(most), engine.cellAt[0], engine.cellAt[1]);
      engine.at = before;
      const surely = 2 * (length - taken) + 65;
      if (status === STATUS.OK && engine.size(0) > 0) {
        answers.push(engine.bytes.slice(answer, answer + engine.size(1)));
        taken += engine.size(0);
      } else if (status === STATUS.TOO_SMALL && most < surely) {
        most = Math.min(surely, 4 * most);
      } else if (status === STATUS.NO_MEMORY && room < surely) {
        room = surely;
      } else {
        throw new WktError(status);
      }
    }
  }
}

/** Pieces of bytes as one. */
export function joined(pieces) {
  const all = new Uint8Array(pieces.reduce((n, piece) => n + piece.length, 0));
  let at = 0;
  for (const piece of pieces) {
    all.set(piece, at);
    at += piece.length;
  }
  return all;
}
