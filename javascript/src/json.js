// JSON whose numbers are kept as they are written. JSON.parse would make doubles of them.
import { printable } from './printable.js';

/** A number of JSON, as it is written. */
export class NumberText {
  constructor(text) {
    this.text = text;
  }
}

const isSpace = (unit) => unit === 32 || unit === 10 || unit === 13 || unit === 9;
const isDigit = (unit) => unit >= 48 && unit <= 57; // of no unit, NaN, it isn't
const LITERALS = { t: ['true', true], f: ['false', false], n: ['null', null] };

class Reader {
  constructor(text) {
    this.text = text;
    this.at = 0;
  }

  wrong() {
    const { text, at } = this;
    const what = at < text.length ? `unexpected ${printable(String.fromCodePoint(text.codePointAt(at)))} at ${at}` : 'it ends too early';
    return new SyntaxError(`JSON: ${what}`);
  }

  /** The next byte that is no white space, which is not taken. */
  peek() {
    while (isSpace(this.text.charCodeAt(this.at))) this.at++;
    return this.text[this.at];
  }

  take(mark) {
    if (this.peek() !== mark) throw this.wrong();
    this.at++;
  }

  string() {
    const from = this.at;
    this.take('"');
    const begin = this.at - 1;
    while (this.text[this.at] !== '"') {
      if (this.at >= this.text.length || this.text[this.at] < ' ') throw this.wrong();
      this.at += this.text[this.at] === '\\' ? 2 : 1;
    }
    this.at++;
    try {
      return JSON.parse(this.text.slice(begin, this.at));
    } catch {
      this.at = from;
      throw this.wrong();
    }
  }

  digits() {
    const from = this.at;
    while (isDigit(this.text.charCodeAt(this.at))) this.at++;
    if (this.at === from) throw this.wrong();
  }

  number() {
    const from = this.at;
    const { text } = this;
    if (text[this.at] === '-') this.at++;
    if (text[this.at] === '0') this.at++;
    else this.digits();
    if (text[this.at] === '.') {
      this.at++;
      this.digits();
    }
    if (text[this.at] === 'e' || text[this.at] === 'E') {
      this.at++;
      if (text[this.at] === '+' || text[this.at] === '-') this.at++;
      this.digits();
    }
    return new NumberText(text.slice(from, this.at));
  }

  literal(mark) {
    const [word, value] = LITERALS[mark];
    if (!this.text.startsWith(word, this.at)) throw this.wrong();
    this.at += word.length;
    return value;
  }

  /** A value that holds no other. */
  plain(mark) {
    if (mark === '"') return this.string();
    if (LITERALS[mark]) return this.literal(mark);
    return this.number();
  }
}

/** Puts a value where it belongs: in a list, or behind the key that was read. */
function add(open, value) {
  const { list, object, key } = open;
  if (list) list.push(value);
  else Object.defineProperty(object, key, { value, writable: true, enumerable: true, configurable: true }); // also `__proto__`
}

/** What JSON.parse gives, but with a NumberText for each number. It takes no stack for nesting. */
export function parseExact(text) {
  const reader = new Reader(text);
  const opened = []; // lists and objects that aren't closed yet
  for (;;) {
    // A value begins.
    const mark = reader.peek();
    let value;
    if (mark === '[' || mark === '{') {
      reader.at++;
      const open = mark === '[' ? { list: [], object: null, end: ']' } : { list: null, object: {}, end: '}' };
      value = open.list ?? open.object;
      if (reader.peek() !== open.end) {
        if (open.object) readKey(reader, open);
        opened.push(open);
        continue;
      }
      reader.at++;
    } else {
      value = reader.plain(mark);
    }
    // It is whole; so may be those that it ends.
    for (;;) {
      if (opened.length === 0) {
        if (reader.peek() !== undefined) throw reader.wrong();
        return value;
      }
      const open = opened[opened.length - 1];
      add(open, value);
      if (reader.peek() === ',') {
        reader.at++;
        if (open.object) readKey(reader, open);
        break;
      }
      reader.take(open.end);
      opened.pop();
      value = open.list ?? open.object;
    }
  }
}

function readKey(reader, open) {
  reader.peek();
  open.key = reader.string();
  reader.take(':');
}
