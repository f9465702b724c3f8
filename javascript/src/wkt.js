// What the module answers.
import { Engine, LoneSurrogate, isTyped, present } from './engine.js';
import { WktError } from './errors.js';
import { LONGEST, codeOf, explanation, explanationOfBytes, hintWords, short } from './explanation.js';
import { DIMENSIONS, EXPECTED, HEADER_MESSAGES, KINDS, STATUS } from './names.js';
import { Arrays, given } from './arrays.js';
import { dialectsOf } from './dialects.js';
import { Events, eventsOf, numbersOf } from './events.js';
import { geoJSONObjectOf, geoJSONOf } from './geojson.js';
import { textOfGeoJSON } from './fromgeojson.js';
import { parseExact } from './json.js';
import { LineAnswers, joined } from './lines.js';

const WHOLE = 256; // WKT_WHOLE of include/wkt.h
const MOST_PLACES = 36;

// Doubles are made faster of numbers of few places. With up to so many places more no number of 64 bits is refused.
const FEW = [6, 15];
const MORE = 19;

// The options that calls take.
const NONE = Object.freeze({});
const hasOwn = Function.prototype.call.bind(Object.prototype.hasOwnProperty);
const ASKED = ['places', 'whole', 'dialect'];
const FRONT = ['places', 'dialect'];
const BYTES = [...ASKED, 'feed'];
const GEOJSON = [...ASKED, 'm'];
const ARRAYS = ['kind', 'dimension', 'numbers', 'rings', 'polygons', 'places', 'end', 'coordinates'];

/** The options of a call, if it knows them all. */
function known(asked, names) {
  if (asked === undefined) return NONE;
  if (asked === null || typeof asked !== 'object') throw new TypeError('options are an object such as { places: 6 }');
  for (const name in asked) {
    if (name === 'places') continue; // which each has: that is all that most calls are passed
    if (!names.includes(name) && hasOwn(asked, name)) throw new TypeError(`no option ${short(name)}: there are ${names.join(', ')}`);
  }
  return asked;
}

/** The number by which a call asks for so many places, for whole texts, and for dialects. */
function asking(places, whole = false, dialect = '') {
  if (!Number.isInteger(places)) throw new TypeError('places is a whole number');
  if (typeof whole !== 'boolean') throw new TypeError('whole is true or false');
  if (places < 0 || places > MOST_PLACES) throw new WktError(STATUS.NO_PLACES);
  return places + (whole ? WHOLE : 0) + (dialect === '' ? 0 : dialectsOf(dialect));
}

/** The number for lines, which are read in no dialect. */
function askingLines(asked) {
  const { places = 18, dialect = '' } = known(asked, FRONT);
  if (dialect !== '') throw new TypeError('lines are read in no dialect');
  return asking(places);
}

function checkM(m) {
  if (!['refuse', 'drop', 'keep'].includes(m)) throw new TypeError("m is 'refuse', 'drop' or 'keep'");
}

const isRefusal = (status) => status <= STATUS.LAST_REFUSAL || status === STATUS.NOT_WHOLE;

/** The proved module with its memory. `load` makes one. */
export class Wkt {
  #engine;

  #few = FEW;

  constructor(module) {
    this.#engine = new Engine(module);
  }

  canonical(text, asked) {
    const { places = 18, whole = true, dialect = '' } = known(asked, ASKED);
    const engine = this.#engine;
    const length = this.#canonical(text, asking(places, whole, dialect));
    return engine.answerTo(text, engine.texts, length);
  }

  canonicalBytes(text, asked) {
    const { places = 18, whole = true, dialect = '', feed = false } = known(asked, BYTES);
    const engine = this.#engine;
    const length = this.#canonical(text, asking(places, whole, dialect));
    const end = engine.answer + length;
    if (!feed) return engine.bytes.slice(engine.answer, end);
    engine.bytes[end] = 10; // `lay` leaves room for it behind the longest answer
    return engine.bytes.slice(engine.answer, end + 1);
  }

  front(text, asked) {
    const { places = 18, dialect = '' } = known(asked, FRONT);
    const engine = this.#engine;
    const length = this.#canonical(text, asking(places, false, dialect));
    // A text is of ASCII as far as its geometry ends: that is one place in bytes and in units.
    return { canonical: engine.ascii(engine.answer, length), end: engine.size(1) };
  }

  reads(text, asked) {
    const { places = 18, whole = true, dialect = '' } = known(asked, ASKED);
    const status = this.#status(text, asking(places, whole, dialect));
    if (status === STATUS.NO_MEMORY) throw new WktError(status);
    return status === STATUS.OK;
  }

  same(one, other, asked) {
    const engine = this.#engine;
    const { places = 18, whole = true, dialect = '' } = known(asked, ASKED);
    const how = asking(places, whole, dialect);
    engine.reset();
    const at = this.#put(one);
    const { length } = engine;
    const otherAt = this.#put(other);
    const otherLength = engine.length;
    const status = engine.same(at, length, otherAt, otherLength, how);
    if (status === STATUS.OK) return engine.number(0) === 1;
    // The status is of one of them: the first that is refused so.
    const refused = isRefusal(status) ? [this.#explained(one, at, length, how), this.#explained(other, otherAt, otherLength, how)] : [];
    const place = refused.find((why) => why?.status === status) ?? refused.find((why) => why) ?? null;
    engine.forget();
    throw new WktError(place?.status ?? status, place);
  }

  explain(text, asked) {
    const { places = 18, whole = true, dialect = '' } = known(asked, ASKED);
    const engine = this.#engine;
    const how = asking(places, whole, dialect);
    engine.reset();
    const at = this.#put(text);
    const place = this.#explained(text, at, engine.length, how);
    if (place) engine.forget();
    return place;
  }

  infer(text) {
    const engine = this.#engine;
    engine.reset();
    const at = this.#put(text);
    const status = engine.infer(at, engine.length);
    if (status !== STATUS.OK) {
      engine.forget();
      throw new WktError(status, null, HEADER_MESSAGES[status]);
    }
    return { kind: KINDS[engine.number(0)], dimension: DIMENSIONS[engine.number(2)] };
  }

  arrays(text, asked) {
    const engine = this.#engine;
    const { places = 6, whole = true, dialect = '' } = known(asked, ASKED);
    const how = asking(places, whole, dialect);
    engine.reset();
    const at = this.#put(text);
    const { length } = engine;
    const status = engine.arrays(at, length, how);
    if (status !== STATUS.OK) throw this.#refusal(status, text, at, length, how);
    const [numbers, rings, polygons] = engine.arraysAt;
    return new Arrays(
      KINDS[engine.number(4)], DIMENSIONS[engine.number(5)], places,
      engine.numbers(numbers, engine.size(3)), engine.offsets(rings, engine.size(4)), engine.offsets(polygons, engine.size(5)),
      engine.size(6),
    );
  }

  fromArrays(arrays) {
    const engine = this.#engine;
    const { kind, dimension = 'XY', numbers, rings, polygons, places = 6 } = known(arrays ?? null, ARRAYS);
    asking(places);
    const status = engine.fromArrays(given({ kind, dimension, numbers, rings, polygons }), places);
    if (status !== STATUS.OK) throw new WktError(status);
    return engine.ascii(engine.answer, engine.size(0));
  }

  readEvents(text, asked) {
    const { places = 18, whole = true, dialect = '' } = known(asked, ASKED);
    const engine = this.#engine;
    this.#events(text, this.#read(text, asking(places, whole, dialect)));
    const [events, numbers] = engine.eventsAt;
    return new Events(eventsOf(engine.words, events, engine.size(0)), numbersOf(engine.longs, numbers, engine.size(1)), places);
  }

  srid(text) {
    const engine = this.#engine;
    engine.reset();
    const at = this.#put(text);
    const status = engine.srid(at, engine.length);
    if (status !== STATUS.OK) throw new WktError(status);
    return engine.size(1) > 0 ? engine.number(0) : null;
  }

  columns(texts, asked) {
    const engine = this.#engine;
    const { places = 18, whole = true, dialect = '' } = known(asked, ASKED);
    const how = asking(places, whole, dialect);
    if (typeof texts === 'string' || isTyped(texts)) throw new TypeError('a column is a list of texts, and not one');
    const answers = [];
    const statuses = [];
    for (const text of texts) {
      const status = text === null || text === undefined ? STATUS.NULL : this.#status(text, how);
      if (status === STATUS.NO_MEMORY) throw new WktError(status);
      answers.push(status === STATUS.OK ? engine.answerTo(text, engine.texts, engine.size(0)) : null);
      statuses.push(status);
    }
    return { texts: answers, statuses: Uint8Array.from(statuses) };
  }

  lines(input, asked) {
    const engine = this.#engine;
    const answers = new LineAnswers(engine, askingLines(asked));
    const isString = typeof input === 'string';
    let bytes = isString ? null : present(input, 'lines are a string or a Uint8Array');
    if (isString) {
      engine.reset();
      const at = this.#put(input);
      bytes = engine.bytes.slice(at, at + engine.length);
    }
    const all = joined([...answers.push(bytes), ...answers.end()]);
    return isString ? new TextDecoder().decode(all) : all;
  }

  lineStream(asked) {
    const answers = new LineAnswers(this.#engine, askingLines(asked));
    return new TransformStream({
      transform(chunk, out) {
        for (const piece of answers.push(present(chunk, 'lineStream takes chunks of bytes'))) out.enqueue(piece);
      },
      flush(out) {
        for (const piece of answers.end()) out.enqueue(piece);
      },
    });
  }

  toGeoJSON(text, asked) {
    const { places = 18, whole = true, m = 'refuse', dialect = '' } = known(asked, GEOJSON);
    checkM(m);
    return geoJSONOf(this.canonical(text, { places, whole, dialect }), m);
  }

  toGeoJSONObject(text, asked) {
    const { places = 18, whole = true, m = 'refuse', dialect = '' } = known(asked, GEOJSON);
    checkM(m);
    const engine = this.#engine;
    const read = this.#read(text, asking(places, whole, dialect));
    const before = engine.at;
    for (const few of this.#few) {
      if (few >= places || places - few > MORE) continue;
      engine.at = before;
      if (engine.events(read.at, read.length, read.asked - places + few) !== STATUS.OK) continue;
      const made = geoJSONObjectOf(engine.words, engine.eventsAt, few, m, false);
      if (made === null) continue;
      // The next text is likely to have as many.
      if (few !== this.#few[0]) this.#few = [few, this.#few[0]];
      return made;
    }
    engine.at = before;
    this.#events(text, read);
    return geoJSONObjectOf(engine.words, engine.eventsAt, places, m, true);
  }

  fromGeoJSON(geometry, asked) {
    const { places = 18 } = known(asked, ['places']);
    const text = textOfGeoJSON(typeof geometry === 'string' ? parseExact(geometry) : geometry);
    try {
      return this.canonical(text, { places });
    } catch (error) {
      // Only a number can be refused. Its place is one in a text that the caller doesn't know.
      if (error instanceof WktError && error.place) throw new WktError(STATUS.BAD_NUMBER, null, error.hint || error.words);
      throw error;
    }
  }

  get memory() {
    return this.#engine.memory.buffer.byteLength;
  }

  release() {
    this.#engine.start();
  }

  /** Lays out a text. */
  #put(text) {
    try {
      return this.#engine.put(text);
    } catch (error) {
      if (!(error instanceof LoneSurrogate)) throw error;
      this.#engine.forget();
      const said = { expected: 'a character', hint: 'a lone surrogate is half of a character', code: 'not_utf8' };
      const place = explanation(text, STATUS.NOT_UTF8, error.at, error.at + 1, said);
      throw new WktError(STATUS.NOT_UTF8, place);
    }
  }

  /** The status of a text; where it is 0 the answer stands in memory. */
  #status(text, asked) {
    const engine = this.#engine;
    engine.reset();
    let at;
    try {
      at = engine.put(text);
    } catch (error) {
      if (!(error instanceof LoneSurrogate)) throw error;
      engine.forget();
      return STATUS.NOT_UTF8;
    }
    const status = engine.canonical(at, engine.length, asked);
    if (status !== STATUS.OK) engine.forget();
    return status;
  }

  /** The length of a text's canonical text, which stands in memory. */
  #canonical(text, asked) {
    const engine = this.#engine;
    engine.reset();
    const at = this.#put(text);
    const status = engine.canonical(at, engine.length, asked);
    if (status !== STATUS.OK) throw this.#refusal(status, text, at, engine.length, asked);
    return engine.size(0);
  }

  /** Lays out a text whose events are asked for; of one in dialects, the canonical text. */
  #read(text, asked) {
    const engine = this.#engine;
    if (asked >= 2 * WHOLE) {
      const length = this.#canonical(text, asked);
      return { at: engine.answer, length, asked: asked % WHOLE };
    }
    engine.reset();
    const at = this.#put(text);
    return { at, length: engine.length, asked };
  }

  /** The events of such a text, which stand in memory then. */
  #events(text, { at, length, asked }) {
    const status = this.#engine.events(at, length, asked);
    if (status !== STATUS.OK) throw this.#refusal(status, text, at, length, asked);
  }

  /** The error of a text that stands at `at`. */
  #refusal(status, text, at, length, asked) {
    const place = isRefusal(status) ? this.#explained(text, at, length, asked) : null;
    this.#engine.forget();
    return new WktError(status, place);
  }

  /** Why the text that stands at `at` is refused; null where it is read. */
  #explained(text, at, length, asked) {
    const engine = this.#engine;
    const status = engine.explain(at, length, asked);
    if (status === STATUS.ACCEPTED) return null;
    if (status !== STATUS.OK && status !== STATUS.NOT_WHOLE) {
      engine.forget();
      throw new WktError(status);
    }
    const [start, stop] = [engine.size(1), engine.size(2)];
    const there = { text, at, length, start, stop };
    if (status === STATUS.NOT_WHOLE) return this.#explanation(there, status, { expected: 'the end of the text', hint: '', code: 'not_whole' });
    const [message, what] = [engine.number(0), engine.number(6)];
    const hint = engine.hint(at, length, asked);
    return this.#explanation(there, message, {
      expected: EXPECTED[what] ?? `something newer (expectation ${what})`,
      hint: hint === 0 ? '' : hintWords(hint, engine.utf8(at + start, Math.min(stop - start, LONGEST)), asked % WHOLE),
      code: codeOf(hint, what),
    });
  }

  #explanation({ text, at, length, start, stop }, status, said) {
    const engine = this.#engine;
    if (typeof text !== 'string') return explanationOfBytes(engine.bytes.subarray(at, at + length), status, start, stop, said);
    const [first, last] = length === text.length ? [start, stop] : [engine.units(at, start), engine.units(at, stop)];
    return explanation(text, status, first, last, said);
  }
}
