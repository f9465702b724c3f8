// Reads a file in a worker, and joins what some workers count in its blocks. The file is read in pieces; nothing of it is
// kept but what is counted, listed, and saved.
import { ASKED, Blocks, LISTED } from './block.js';
import { grouped } from './causes.js';
import { Range, boundsOf } from './range.js';
import { Repeats, WORDS, lineEnd } from './repeats.js';
import { LOOKED, TURNED, formsOf, turned } from './takein.js';
import { SAMPLE, Tally } from './tally.js';

const PIECE = 4 << 20;
/** The longest line: its text and its answer stand in the module's memory, which has 4 GB. */
const LONGEST = 256 << 20;
/** So much of a long line is read for the engine to make faster code. It halves what the answer to 50 MB takes. */
const WARM = 1 << 20;
/** How much canonical text is kept to be saved, and how much of it in memory. */
const KEPT = 2 ** 30, IN_MEMORY = 2 ** 28;
const FEED = 10;
/** How often, in milliseconds, it says how far it is, and what is listed and drawn. */
const TOLD = 200, LISTS = 600;

/** What the file can't be, said in a user's words. */
export class Unreadable extends Error {}

/** Words for a file that is no text, by its first bytes; '' where it may be one. */
function noText([a, b, c, d]) {
  if ((a === 0xff && b === 0xfe) || (a === 0xfe && b === 0xff)) return 'It is UTF-16. Save it as UTF-8 first.';
  if (a === 0x1f && b === 0x8b) return 'It is compressed by gzip. Unpack it first.';
  if (a === 0x50 && b === 0x4b && c < 9 && d < 9) return 'It is a ZIP archive. Unpack it first.';
  return '';
}

/** Asks another worker, one thing at a time. */
const asking = (port) => (asked) => new Promise((resolve, reject) => {
  port.onmessage = ({ data }) => (data.failed ? reject(new Error(data.failed)) : resolve(data));
  port.postMessage(asked, asked.bytes ? [asked.bytes.buffer] : []);
});

/** What a worker is asked for: the answers to a block, and what it has counted so far. */
export function answered(blocks, { bytes, whole, ask, counted }) {
  const found = bytes ? (whole ? blocks.one(bytes, ask) : blocks.lines(bytes, ask)) : {};
  return { ...found, counted: counted ? blocks.counted() : null };
}

/** How the lines of a text are numbered that was turned. */
const numberOf = (numbers, line) => (numbers ? numbers[line - 1] ?? line : line);

export class Reading {
  #wkt;
  #asked;
  #file;
  #workers;
  #post;
  #numbers = null;
  #left = []; // what of the file had no geometry that could be turned
  #local;
  #reader = new FileReaderSync();
  #repeats;
  #counted = new Map();
  #whys = [];
  #count = { lines: 0, accepted: 0, blank: 0, refused: 0 };
  #read = 0; // how many bytes of the file were read, and to how many there are answers
  #done = 0;
  // The canonical lines, in pieces; null where they became too many.
  #parts = [];
  #kept = 0;
  #started = performance.now();
  #told = 0;
  #listed = 0;
  #forms = [];
  /** Whether the reader asked to stop. */
  stopping = false;

  /** `asked` has the file, how it is read, whether it is one text, and the form that it is turned from; `ports` are of helpers. */
  constructor(wkt, asked, post) {
    const seeds = Tally.seeds();
    this.#wkt = wkt;
    this.#asked = asked;
    this.#file = asked.file;
    this.#post = post;
    this.#local = new Blocks(wkt, { reading: asked.reading, seeds });
    for (const port of asked.ports) port.postMessage({ seeds });
    this.#workers = asked.ports.length > 0 ? asked.ports.map(asking) : [async (it) => answered(this.#local, it)];
    this.#repeats = new Repeats((place, length) => this.#lineAt(place, length));
  }

  async all() {
    const first = new Uint8Array(await this.#file.slice(0, LOOKED).arrayBuffer());
    const words = noText(first);
    if (words) throw new Unreadable(words);
    this.#look(first);
    if (this.#asked.form) await this.#turn();
    if (this.#asked.split === 'one' && this.#file.size > LONGEST) throw new Unreadable(`One text may have ${LONGEST >> 20} MB here. The command wkt reads longer ones.`);
    await this.#blocks();
    this.#repeats.find();
    this.#tell(true);
  }

  /** Whether the file is something else that a button turns. */
  #look(first) {
    if (this.#asked.form && this.#asked.form.form !== 'pieces') return;
    this.#forms = formsOf(new TextDecoder('utf-8', { ignoreBOM: true }).decode(first), this.#file.size > first.length);
  }

  /** Puts the texts of the file, one on each line, in its place. */
  async #turn() {
    const { form } = this.#asked;
    if (this.#file.size > TURNED) throw new Unreadable(`A file of more than ${TURNED >> 20} MB can’t be turned here.`);
    let text;
    try {
      text = new TextDecoder('utf-8', { fatal: true, ignoreBOM: true }).decode(await this.#file.arrayBuffer());
    } catch {
      throw new Unreadable('It is not UTF-8.');
    }
    const { texts, lines, left } = turned(text, form, this.#wkt, this.#asked.reading.places);
    this.#numbers = lines;
    this.#left = left;
    this.#file = new Blob([texts.join('\n')]);
  }

  /** Reads whole lines from where the last were read to, about a piece of them; or one that is longer; or all of the file. */
  async #lines(whole) {
    const begin = this.#read;
    let seen = 0; // so much of a line has no line feed
    for (let length = PIECE; ; length *= 16) {
      const part = new Uint8Array(await this.#file.slice(begin, begin + Math.min(length, LONGEST + PIECE)).arrayBuffer());
      const ends = begin + part.length === this.#file.size;
      const feed = whole ? -1 : seen > 0 ? part.indexOf(FEED, seen) : ends ? part.length - 1 : part.lastIndexOf(FEED);
      const to = feed >= 0 ? feed + 1 : ends ? part.length : 0;
      this.#read = begin + (to || part.length);
      // One call answers a long line, and says nothing until then: so each of the few times that it is read is said.
      if (to === 0 || seen > 0) this.#tell(false, 0);
      if (to > 0 || this.stopping) return part.subarray(0, to);
      if (part.length > LONGEST) throw new Unreadable(`A line behind line ${this.#count.lines} is longer than ${LONGEST >> 20} MB. The command wkt reads it.`);
      // Engines put faster code in place between calls alone, and one call answers a long line. So its front is read before.
      if (seen === 0) this.#wkt.reads(part.subarray(0, WARM), this.#asked.reading);
      seen = part.length;
    }
  }

  /** Gives a block to each worker as soon as it is free, and takes the answers in the order of the file. */
  async #blocks() {
    const { size } = this.#file;
    const whole = this.#asked.split === 'one';
    const waiting = [];
    const free = [...this.#workers];
    for (;;) {
      while (free.length > 0 && this.#read < size && !this.stopping) {
        const place = this.#read;
        const bytes = await this.#lines(whole);
        if (this.stopping) break;
        const worker = free.pop();
        waiting.push({ place, to: this.#read, worker, answer: worker({ bytes, whole, ask: Math.max(0, ASKED - this.#count.refused), counted: this.#isTime(LISTS) }) });
      }
      if (waiting.length === 0) break;
      const { place, to, worker, answer } = waiting.shift();
      this.#take(await answer, place, to, worker);
      free.push(worker);
      this.#tell(false);
    }
    for (const worker of this.#workers) this.#counted.set(worker, (await worker({ counted: true })).counted);
  }

  #isTime(ms) {
    return performance.now() - this.#listed > ms;
  }

  #take({ answers, words, lines, blank, refusals, kept, counted }, place, to, worker) {
    const count = this.#count;
    this.#repeats.add(words, answers, count.lines, place);
    for (const why of refusals.whys.slice(0, ASKED - this.#whys.length)) this.#whys.push({ ...why, line: numberOf(this.#numbers, count.lines + why.line) });
    count.lines += lines;
    count.accepted += words.length / WORDS;
    count.blank += blank;
    count.refused += refusals.count;
    this.#done = to;
    if (counted) this.#counted.set(worker, counted);
    this.#keep(kept ?? answers);
  }

  /** Keeps canonical lines: in memory as long as the repeats are told by them too, else as the browser likes. */
  #keep(part) {
    if (this.#parts === null) return;
    this.#kept += part.size ?? part.length;
    if (this.#kept > KEPT) this.#parts = null;
    else this.#parts.push(this.#kept > IN_MEMORY ? new Blob([part]) : part);
  }

  // The part of the file that was read last, since the next line is often in it.
  #near = { start: 0, bytes: new Uint8Array(0) };

  /** The canonical text, with a line feed, of the line that begins at a place of the file. */
  #lineAt(place, length) {
    for (let more = length; ; more *= 2) {
      const { start, bytes } = this.#near;
      const from = place - start;
      const end = from >= 0 && from < bytes.length ? lineEnd(bytes, from) : bytes.length;
      if (end < bytes.length || (start === place && bytes.length >= this.#file.size - place)) return this.#local.lineOf(bytes.subarray(from, end));
      this.#near = { start: place, bytes: new Uint8Array(this.#reader.readAsArrayBuffer(this.#file.slice(place, place + more))) };
    }
  }

  /** Says how far it is: often in numbers, and less often what is listed and drawn. */
  #tell(last, often = TOLD) {
    const now = performance.now();
    if (!last && now - this.#told < often) return;
    this.#told = now;
    const { size } = this.#file;
    const said = { done: last && !this.stopping ? size : this.#done, read: this.#read, size, seconds: (now - this.#started) / 1000, ...this.#count,
      repeats: last ? this.#repeats.count : null, ...(this.#counted.size > 0 && (last || this.#isTime(LISTS)) ? { lists: this.#lists(now) } : {}) };
    if (last) Object.assign(said, { last, stopped: this.stopping, saved: this.#parts, whys: this.#whys,
      forms: this.#forms, left: this.#left, numbers: this.#numbers });
    this.#post(said, last && this.#parts ? this.#parts.filter((part) => part.buffer).map((part) => part.buffer) : []);
  }

  #lists(now) {
    this.#listed = now;
    const all = summed([...this.#counted.values()]);
    return { ...all, refusals: this.#whys.slice(0, LISTED), causes: grouped(this.#whys), asked: this.#whys.length,
      repeats: this.#repeats.first.map((pair) => pair.map((line) => numberOf(this.#numbers, line))), entered: this.#repeats.full ? this.#repeats.entered : null };
  }
}

/** What was counted by some workers, as one. */
function summed(counted) {
  const kinds = {};
  const ranges = [0, 1, 2, 3].map(() => new Range());
  let points = 0;
  for (const part of counted) {
    points += part.points;
    for (const [name, n] of Object.entries(part.kinds)) kinds[name] = (kinds[name] ?? 0) + n;
    part.ranges.forEach((range, i) => ranges[i].join(range));
  }
  return { kinds, points, bounds: boundsOf(ranges), sample: sampleOf(counted, points) };
}

/** Points of all samples, of each as many as its part of all points is. */
function sampleOf(counted, points) {
  const all = [];
  for (const { sample, points: n } of counted) {
    const had = sample.length / 2;
    const taken = points <= SAMPLE ? had : Math.min(had, Math.round((SAMPLE * n) / points));
    for (let k = 0; k < taken; k++) {
      const i = 2 * Math.floor((k * had) / taken);
      all.push(sample[i], sample[i + 1]);
    }
  }
  return Float64Array.from(all);
}
