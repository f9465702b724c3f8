// The module and its memory.
//
// The proved module has no allocator: its stack is at the front of its memory, and all from __heap_base on is ours. Each
// call lays out there anew what it needs, so nothing is freed, and nothing leaks. Memory grows to what the longest call
// needed; `start` begins with a new memory.
import { STATUS } from './names.js';
import { WktError } from './errors.js';

const EXPORTS = ['memory', '__heap_base', 'wkt_arrays', 'wkt_arrays_in', 'wkt_canonical', 'wkt_canonical_in', 'wkt_explain', 'wkt_explain_in',
  'wkt_from_arrays', 'wkt_hint', 'wkt_hint_in', 'wkt_infer', 'wkt_lines_some', 'wkt_read_events', 'wkt_same_ends', 'wkt_same_ends_in', 'wkt_srid'];
const PAGE = 65536;
// Results: sixteen words of 64 bits. Behind them stands what a call lays out.
const CELLS = 16;
// Of a text that is at most so long the bytes are put, and compared, one by one: that is faster than the conversions.
const SHORT = 48;
// A text that is longer is written in a room first, and then to its answer.
const ROOMLESS = 200;
// More is asked for with dialects.
const MOST_PLAIN = 511;
// The text that a text in dialects is read as has at most twelve bytes for one of its. A longer one gets less room at first.
const READ_AS = 12;
const LONG = 4096;
// A text without an answer leaves no more memory than these bytes.
const KEPT = 1 << 24;
// Lengths of short texts as BigInt, made once.
const SMALL = Array.from({ length: 1024 }, (_, n) => BigInt(n));

const encoder = new TextEncoder();
const ascii = new TextDecoder();
const utf8 = new TextDecoder('utf-8', { ignoreBOM: true });

/** The next multiple of 16. An address may have 32 bits, so it is no case for `&`. */
const aligned = (n) => n + 15 - ((n + 15) % 16);
export const big = (n) => (n < SMALL.length ? SMALL[n] : BigInt(n));

/** The first half of a surrogate pair that stands alone in a string, or -1. */
function loneSurrogate(text) {
  for (let i = 0; i < text.length; i++) {
    const unit = text.charCodeAt(i);
    if (unit < 0xd800 || unit >= 0xe000) continue;
    const next = text.charCodeAt(i + 1);
    if (unit >= 0xdc00 || !(next >= 0xdc00 && next < 0xe000)) return i;
    i++;
  }
  return -1;
}

/** A string that has no UTF-8. */
export class LoneSurrogate extends Error {
  constructor(at) {
    super('a lone surrogate');
    this.at = at;
  }
}

// What all typed arrays have. A subclass may say something else of itself.
const TYPED = Object.getPrototypeOf(Uint8Array.prototype);
const [typeOf, bufferOf, beginOf, lengthOf] = [Symbol.toStringTag, 'buffer', 'byteOffset', 'length']
  .map((name) => Function.prototype.call.bind(Object.getOwnPropertyDescriptor(TYPED, name).get));
const indexOf = Function.prototype.call.bind(TYPED.indexOf);

/** Whether a value is a typed array: also that of another realm, as of a frame or of the sandbox of a test. */
export const isTyped = (value) => typeOf(value) !== undefined;

/** How many bytes there are, if they are a Uint8Array. Of a detached buffer it would be 0, and they would be taken for no text. */
function countOf(bytes, what) {
  if (typeOf(bytes) !== 'Uint8Array') throw new TypeError(what);
  const length = lengthOf(bytes);
  try {
    if (length === 0) indexOf(bytes, 0);
  } catch {
    throw new TypeError('the buffer of the bytes is detached');
  }
  return length;
}

/** The same bytes, as a plain Uint8Array. */
export function present(bytes, what) {
  const length = countOf(bytes, what);
  return new Uint8Array(bufferOf(bytes), beginOf(bytes), length);
}

export class Engine {
  /** @param {WebAssembly.Module} module */
  constructor(module) {
    const has = WebAssembly.Module.exports(module).map(({ name }) => name);
    const lacking = EXPORTS.find((name) => !has.includes(name));
    if (lacking) throw new TypeError(`this module isn't wkt.wasm: it has no ${lacking}`);
    this.module = module;
    this.start();
  }

  start() {
    this.stopped = true; // until all of it is there
    const { exports } = new WebAssembly.Instance(this.module, {});
    this.calls = exports;
    this.memory = exports.memory;
    this.base = aligned(Number(exports.__heap_base.value));
    // Where the first text of a call stands.
    this.texts = this.base + 8 * CELLS;
    this.cellAt = Array.from({ length: CELLS }, (_, i) => BigInt(this.base + 8 * i));
    this.view();
    this.at = this.texts;
    this.room(PAGE);
    // Behind a short text its lists stand where they always stand.
    this.at = this.texts + 256;
    this.shortArrays = this.arrayLists(ROOMLESS);
    this.at = this.texts + 256;
    this.shortEvents = this.eventLists(ROOMLESS);
    this.stopped = false;
  }

  /** By the length of `bytes` it is known whether the others are of a memory that has grown, so it comes last. */
  view() {
    this.words = new Uint32Array(this.memory.buffer);
    this.longs = new BigInt64Array(this.memory.buffer);
    this.cells = this.words.subarray(this.base / 4, this.base / 4 + 2 * CELLS);
    this.bytes = new Uint8Array(this.memory.buffer);
  }

  /** Begins a call: what the last laid out is gone. It has a new instance, if a call was stopped before its end. */
  reset() {
    if (this.stopped) this.start();
    this.at = this.texts;
  }

  /** Makes sure that so many bytes stand behind what is laid out. */
  room(size) {
    const lacking = Math.ceil((this.at + size - this.bytes.length) / PAGE);
    if (lacking <= 0) return;
    // By half at once, so that calls that need more and more grow it seldom; or, where that isn't there, by what is needed.
    const half = Math.floor(this.bytes.length / PAGE / 2);
    if (!this.grows(Math.max(lacking, half)) && !this.grows(lacking)) {
      this.forget();
      throw new WktError(STATUS.NO_MEMORY);
    }
    this.view();
  }

  /** Gives back the memory that a text without an answer took, where it is much. What stands in it is gone. */
  forget() {
    if (this.bytes.length > KEPT && !this.stopped) this.start();
  }

  grows(pages) {
    try {
      this.memory.grow(pages);
      return true;
    } catch (error) {
      if (error instanceof RangeError) return false;
      throw error;
    }
  }

  /** Lays out so many bytes, at a multiple of 16. */
  lay(size) {
    this.room(size + 16);
    const { at } = this;
    this.at = aligned(at + size);
    return at;
  }

  /** A result of 64 bits, of which no size here needs the upper half. */
  size(cell) {
    return this.cells[2 * cell];
  }

  /** A result of 32 bits; `half` counts them. */
  number(half) {
    return this.cells[half];
  }

  /** Lays out a text as UTF-8, and returns where it stands; its length is in `this.length`. */
  put(text) {
    if (typeof text === 'string') return this.putString(text);
    const length = countOf(text, 'a text is a string or a Uint8Array');
    const at = this.lay(length);
    this.bytes.set(text, at);
    this.length = length;
    return at;
  }

  putString(text) {
    const n = text.length;
    this.room(n + 32);
    const { at } = this;
    this.length = n <= SHORT && this.putAscii(text, at) ? n : this.encode(text, at);
    this.at = aligned(at + this.length);
    return at;
  }

  /** Whether a string is of ASCII alone; then it is in memory from `at` on. */
  putAscii(text, at) {
    const { bytes } = this;
    for (let i = 0; i < text.length; i++) {
      const unit = text.charCodeAt(i);
      if (unit > 127) return false;
      bytes[at + i] = unit;
    }
    return true;
  }

  encode(text, at) {
    const n = text.length;
    let done = encoder.encodeInto(text, this.bytes.subarray(at));
    if (done.read < n) {
      this.room(3 * n + 32);
      done = encoder.encodeInto(text, this.bytes.subarray(at));
    }
    if (done.written !== n) {
      // The encoder puts U+FFFD in place of a lone surrogate: that would be another text.
      const lone = loneSurrogate(text);
      if (lone >= 0) throw new LoneSurrogate(lone);
    }
    return done.written;
  }

  /** The ASCII text from `at` on. */
  ascii(at, length) {
    if (length > SHORT / 2) return ascii.decode(this.bytes.subarray(at, at + length));
    let text = '';
    for (let i = at; i < at + length; i++) text += String.fromCharCode(this.bytes[i]);
    return text;
  }

  /** The text from `at` on, which is UTF-8, but that a character may be cut at its end. */
  utf8(at, length) {
    return utf8.decode(this.bytes.subarray(at, at + length));
  }

  /** How many UTF-16 units the first bytes of the UTF-8 text there are. */
  units(at, length) {
    let n = 0;
    for (let i = at; i < at + length; i++) {
      const byte = this.bytes[i];
      if ((byte & 0xc0) !== 0x80) n += byte >= 0xf0 ? 2 : 1;
    }
    return n;
  }

  /** The canonical text of the last call of `canonical` as a string: the text itself, where it is short and its own. */
  answerTo(text, at, length) {
    if (length === text.length && length === this.length && length <= 256 && typeof text === 'string') {
      const { bytes, answer } = this;
      let i = 0;
      while (i < length && bytes[at + i] === bytes[answer + i]) i++;
      if (i === length) return text;
    }
    return this.ascii(this.answer, length);
  }

  /**
   * Calls the module. Its code is proved not to trap, but the engine may stop it anywhere, as where the stack of JavaScript
   * ends, or by a time limit of `vm`, of which nothing is caught here. What it then leaves isn't called again.
   */
  call(name, ...args) {
    this.stopped = true;
    const status = this.calls[name](...args);
    this.stopped = false;
    return status;
  }

  /** A text's canonical text, at `this.answer`; its length is size 0, and the end of the geometry size 1. */
  canonical(at, length, asked) {
    if (asked > MOST_PLAIN) return this.inDialects(length, (times) => this.canonicalIn(at, length, asked, times));
    const most = 2 * length + 65;
    const size = length > ROOMLESS ? most : 0;
    const room = size > 0 ? this.lay(size) : at;
    const answer = this.lay(most);
    this.answer = answer;
    this.stopped = true; // as in `call`, which takes longer
    const status = this.calls.wkt_canonical(big(at), big(length), asked, big(room), big(size), big(answer), big(most),
      this.cellAt[0], this.cellAt[1]);
    this.stopped = false;
    return status;
  }

  /** The status of a call in dialects. It gets room for the text that a text of so many bytes is read as, so many times them. */
  inDialects(length, call) {
    const before = this.at;
    let status;
    for (const times of length > LONG ? [0, 2, READ_AS] : [READ_AS]) {
      this.at = before;
      status = call(times);
      if (status !== STATUS.NO_MEMORY) break;
    }
    return status;
  }

  /** Lays out so many bytes as a room, and returns its address and its size as they are passed. */
  passed(size) {
    return [big(this.lay(size)), big(size)];
  }

  canonicalIn(at, length, asked, times) {
    const most = 2 * Math.max(times, 1) * length + 67;
    const [read, room] = [this.passed(times * length + 1), this.passed(most)];
    this.answer = this.lay(most);
    return this.call('wkt_canonical_in', big(at), big(length), asked, big(read[0]), big(read[1]), big(room[0]), big(room[1]),
      big(this.answer), big(most), this.cellAt[0], this.cellAt[1]);
  }

  /** Where a text is refused: message (number 0), start (size 1), stop (size 2), expected (number 6). */
  explain(at, length, asked) {
    const cell = this.cellAt;
    if (asked <= MOST_PLAIN) return this.call('wkt_explain', big(at), big(length), asked, cell[0], cell[1], cell[2], cell[3]);
    return this.inDialects(length, (times) => {
      const read = this.passed(times * length + 1);
      return this.call('wkt_explain_in', big(at), big(length), asked, big(read[0]), big(read[1]), cell[0], cell[1], cell[2], cell[3]);
    });
  }

  /** The number of the hint to a text that is refused, or 0. */
  hint(at, length, asked) {
    const status = asked <= MOST_PLAIN ? this.call('wkt_hint', big(at), big(length), asked, this.cellAt[4])
      : this.inDialects(length, (times) => {
        const read = this.passed(times * length + 1);
        return this.call('wkt_hint_in', big(at), big(length), asked, big(read[0]), big(read[1]), this.cellAt[4]);
      });
    return status === STATUS.OK ? this.number(8) : 0;
  }

  /** Whether two texts begin with one geometry (number 0). */
  same(one, length, other, otherLength, asked) {
    const cell = this.cellAt;
    if (asked <= MOST_PLAIN) {
      const [room, otherRoom] = [this.passed(2 * length + 65), this.passed(2 * otherLength + 65)];
      return this.call('wkt_same_ends', big(one), big(length), big(other), big(otherLength), asked,
        big(room[0]), big(room[1]), big(otherRoom[0]), big(otherRoom[1]), cell[0], cell[1], cell[2]);
    }
    return this.inDialects(Math.max(length, otherLength), (times) => {
      const [read, otherRead] = [this.passed(times * length + 1), this.passed(times * otherLength + 1)];
      const [room, otherRoom] = [length, otherLength].map((n) => this.passed(2 * Math.max(times, 1) * n + 67));
      return this.call('wkt_same_ends_in', big(one), big(length), big(other), big(otherLength), asked,
        big(read[0]), big(read[1]), big(otherRead[0]), big(otherRead[1]),
        big(room[0]), big(room[1]), big(otherRoom[0]), big(otherRoom[1]), cell[0], cell[1], cell[2]);
    });
  }

  /** The kind (number 0) and the dimension (number 2) of a text's header. */
  infer(at, length) {
    return this.call('wkt_infer', big(at), big(length), this.cellAt[0], this.cellAt[1]);
  }

  /** The SRID in front of a text (number 0), and where what stands behind it begins (size 1), which is 0 where there is none. */
  srid(at, length) {
    return this.call('wkt_srid', big(at), big(length), this.cellAt[0], this.cellAt[1]);
  }

  /** Rooms and lists for the arrays of a text of so many bytes: each is made in a room, the last two in one, and copied from there. */
  arrayLists(length) {
    const sizes = [Math.floor(length / 2) + 2, Math.floor(length / 4) + 2, Math.floor(length / 6) + 2];
    const [numbersRoom, wordsRoom] = [sizes[0], sizes[1] + sizes[2]].map((size) => [big(this.lay(8 * size)), big(size)]);
    const at = sizes.map((size) => this.lay(8 * size));
    const [numbers, rings, polygons] = sizes.map((size, i) => [big(at[i]), big(size)]);
    return { at, numbersRoom, wordsRoom, numbers, rings, polygons };
  }

  /**
   * Flat arrays, at the addresses in `this.arraysAt`. Kind and dimension are numbers 4 and 5, the lengths sizes 3 to 5, the
   * end of the geometry size 6.
   */
  arrays(at, length, asked) {
    if (asked > MOST_PLAIN) return this.inDialects(length, (times) => this.arraysIn(at, length, asked, times));
    const lists = length <= ROOMLESS && at === this.texts ? this.shortArrays : this.arrayLists(length);
    this.arraysAt = lists.at;
    return this.call('wkt_arrays', big(at), big(length), asked,
      lists.numbersRoom[0], lists.numbersRoom[1], lists.wordsRoom[0], lists.wordsRoom[1], this.cellAt[2],
      lists.numbers[0], lists.numbers[1], lists.rings[0], lists.rings[1], lists.polygons[0], lists.polygons[1]);
  }

  arraysIn(at, length, asked, times) {
    const read = this.passed(times * length + 1);
    const lists = this.arrayLists(Math.max(times, 1) * length + 1);
    this.arraysAt = lists.at;
    return this.call('wkt_arrays_in', big(at), big(length), asked, big(read[0]), big(read[1]),
      lists.numbersRoom[0], lists.numbersRoom[1], lists.wordsRoom[0], lists.wordsRoom[1], this.cellAt[2],
      lists.numbers[0], lists.numbers[1], lists.rings[0], lists.rings[1], lists.polygons[0], lists.polygons[1]);
  }

  /** Lists for the events of a text of so many bytes. */
  eventLists(length) {
    const size = Math.floor(length / 2);
    const at = [this.lay(8 * size), this.lay(16 * size)];
    return { at, events: big(at[0]), numbers: big(at[1]), size: big(size) };
  }

  /** Events and numbers, at the addresses in `this.eventsAt`. How many there are is sizes 0 and 1, the end of the geometry size 2. */
  events(at, length, asked) {
    const lists = length <= ROOMLESS && at === this.texts ? this.shortEvents : this.eventLists(length);
    this.eventsAt = lists.at;
    const cell = this.cellAt;
    return this.call('wkt_read_events', big(at), big(length), asked, lists.events, lists.size, lists.numbers, lists.size,
      cell[0], cell[1], cell[2]);
  }

  /** Begins with arrays: their text stands at `this.answer` then, and its length is size 0. */
  fromArrays([kind, dimension, numbers, rings, polygons], places) {
    this.reset();
    const numbersAt = this.lay(8 * numbers.length);
    this.longs.set(numbers, numbersAt / 8);
    const [ringsAt, polygonsAt] = [this.putOffsets(rings), this.putOffsets(polygons)];
    const most = numbers.length * (places + 23) + 7 * (rings.length + polygons.length) + 74;
    const room = this.passed(most);
    this.answer = this.lay(most);
    return this.call('wkt_from_arrays', kind, dimension, big(numbersAt), big(numbers.length), big(ringsAt), big(rings.length),
      big(polygonsAt), big(polygons.length), places, big(room[0]), big(room[1]), big(this.answer), big(most), this.cellAt[0]);
  }

  /** Lays out offsets as numbers of 64 bits. */
  putOffsets(offsets) {
    const at = this.lay(8 * offsets.length);
    const { words } = this;
    for (let i = 0; i < offsets.length; i++) {
      words[at / 4 + 2 * i] = offsets[i]; // modulo 2^32
      words[at / 4 + 2 * i + 1] = offsets[i] / 2 ** 32;
    }
    return at;
  }

  /** So many numbers of 64 bits there, as a list of its own. */
  numbers(at, count) {
    const from = at / 8;
    if (count > SHORT) return this.longs.slice(from, from + count);
    const out = new BigInt64Array(count);
    for (let i = 0; i < count; i++) out[i] = this.longs[from + i];
    return out;
  }

  /** So many offsets there: numbers of 64 bits, whose upper halves are 0, since a text has less than 2^32 bytes. */
  offsets(at, count) {
    const out = new Uint32Array(count);
    for (let i = 0; i < count; i++) out[i] = this.words[at / 4 + 2 * i];
    return out;
  }
}
