// Which lines of a file name a geometry that an earlier line names. Hashes find the lines that may be the same, once all are
// there, and then their whole canonical texts are compared. The answers are kept in memory, up to 256 MB of them; lines whose
// answers aren't are read from the file once more.

/** Words of a line: its hash (two), where its answer begins, where it begins in its block, and its number in there. */
export const WORDS = 5;
const LOW = 0, HIGH = 1, AT = 2, FROM = 3, LINE = 4;
/** How far apart two lines may be that are read from the file at once. */
const NEAR = 64 << 10;
const FEED = 10;

export class Repeats {
  /** How many lines name a geometry of an earlier line. */
  count = 0;
  /** The first of them: [line, the earlier line]. */
  first = [];
  /** How many geometries were entered. */
  entered = 0;
  /** Whether there were more than fit, so that later ones weren't entered. */
  full = false;

  #blocks = [];
  #left; // how many bytes more of answers are kept
  #most;
  #shown;
  #far; // how many bytes of canonical text, read from the file, are compared at once
  #lineAt;
  // Of each line that may be a repeat, or be repeated: its block, where its words are there, and 1 and the number of the
  // earlier one, or 0.
  #block;
  #at;
  #earlier;
  #table = new Int32Array(1); // by their hashes, 1 and their numbers
  #doubts = [];
  #doubted = 0; // how many bytes of text they have, about

  /**
   * @param {(place: number, length: number) => Uint8Array} lineAt the canonical text and line feed of the line that begins at
   *   a place of the file; of the file, `length` bytes may be read at once
   */
  constructor(lineAt, { memory = 256 << 20, most = 2 ** 25, shown = 100, far = 32 << 20 } = {}) {
    this.#lineAt = lineAt;
    this.#left = memory;
    this.#most = most;
    this.#shown = shown;
    this.#far = far;
  }

  /** Takes the words of a block's lines and their answers. It begins behind so many lines, and at a place of the file. */
  add(words, answers, lines, place) {
    this.full ||= this.entered + words.length / WORDS > this.#most;
    if (this.full) return;
    const kept = answers.length <= this.#left;
    if (kept) this.#left -= answers.length;
    this.#blocks.push({ words, answers: kept ? answers : null, size: answers.length, lines, place });
    this.entered += words.length / WORDS;
  }

  /** Finds the repeats among all that was taken. */
  find() {
    const n = this.#choose();
    let bits = 1;
    while (2 ** bits < 2 * n) bits++;
    this.#table = new Int32Array(2 ** bits);
    this.#earlier = new Int32Array(n);
    for (let i = 0; i < n; i++) {
      this.#seek(i, this.#word(i, LOW));
      if (this.#doubted > this.#far) this.#settle();
    }
    this.#settle();
    for (let i = 0; i < n && this.first.length < this.#shown; i++) {
      if (this.#earlier[i] > 0) this.first.push([this.#lineOf(i), this.#lineOf(this.#earlier[i] - 1)]);
    }
  }

  /** Chooses the lines whose hash another may have, and returns how many they are. */
  #choose() {
    // A bit for each hash that was met, of 16 times as many; and another, of two times as many, for each met again.
    let bits = 12;
    while (bits < 29 && 2 ** bits < 16 * this.entered) bits++;
    const [met, again] = [new Int32Array(2 ** (bits - 5)), new Int32Array(2 ** (bits - 8))];
    const mask = met.length - 1, fewer = again.length - 1;
    for (const { words } of this.#blocks) {
      for (let i = 0; i < words.length; i += WORDS) {
        const hash = words[i], high = words[i + HIGH];
        const at = (hash >>> 5) & mask, bit = 1 << hash;
        if ((met[at] & bit) !== 0) again[(high >>> 5) & fewer] |= 1 << high;
        met[at] |= bit;
      }
    }
    const [blocks, ats] = [new Int32Array(this.entered), new Int32Array(this.entered)];
    let n = 0;
    this.#blocks.forEach(({ words }, block) => {
      for (let i = 0; i < words.length; i += WORDS) {
        const high = words[i + HIGH];
        if ((again[(high >>> 5) & fewer] & (1 << high)) === 0) continue;
        blocks[n] = block;
        ats[n++] = i;
      }
    });
    [this.#block, this.#at] = [blocks.subarray(0, n), ats.subarray(0, n)];
    return n;
  }

  #word(i, word) {
    return this.#blocks[this.#block[i]].words[this.#at[i] + word];
  }

  #lineOf(i) {
    return this.#blocks[this.#block[i]].lines + this.#word(i, LINE);
  }

  /** Looks for a line's text from a place of the table on: it is found, entered, or left for `settle`. */
  #seek(i, first) {
    const table = this.#table, mask = table.length - 1;
    const block = this.#blocks[this.#block[i]], at = this.#at[i];
    for (let slot = first & mask; ; slot = (slot + 1) & mask) {
      const other = table[slot] - 1;
      if (other < 0) {
        table[slot] = i + 1;
        return;
      }
      const { words, answers } = this.#blocks[this.#block[other]], k = this.#at[other];
      if (words[k + LOW] !== block.words[at + LOW] || words[k + HIGH] !== block.words[at + HIGH]) continue;
      if (!answers || !block.answers) {
        this.#doubts.push({ slot, i, other, text: null });
        this.#doubted += (block.words[at + WORDS + AT] ?? block.size) - block.words[at + AT];
        return;
      }
      if (same(answers, words[k + AT], block.answers, block.words[at + AT])) {
        this.#meet(i, other);
        return;
      }
    }
  }

  #meet(i, other) {
    this.#earlier[i] = other + 1;
    this.count++;
  }

  /** Compares those that are left with their lines in the file. */
  #settle() {
    // A text that isn't the same goes on through the table, and may meet another that is left.
    while (this.#doubts.length > 0) {
      const doubts = this.#doubts.sort((a, b) => a.i - b.i);
      [this.#doubts, this.#doubted] = [[], 0];
      this.#read(doubts, ({ i }) => i, (doubt, text) => { doubt.text = text; });
      doubts.sort((a, b) => a.other - b.other || a.i - b.i);
      this.#read(doubts, ({ other }) => other, ({ slot, i, other, text }, otherText) => {
        if (same(text, 0, otherText, 0)) this.#meet(i, other);
        else this.#seek(i, slot + 1);
      });
    }
  }

  /** Calls `take` with the text of a line of each doubt. They are in the order of these lines. */
  #read(doubts, lineOf, take) {
    const placeOf = (i) => this.#blocks[this.#block[i]].place + this.#word(i, FROM);
    doubts.forEach((doubt, k) => {
      const i = lineOf(doubt);
      const { answers } = this.#blocks[this.#block[i]];
      if (answers) {
        take(doubt, answers.subarray(this.#word(i, AT)));
        return;
      }
      const place = placeOf(i);
      const near = k + 1 < doubts.length && placeOf(lineOf(doubts[k + 1])) - place < NEAR;
      take(doubt, this.#lineAt(place, near ? NEAR : 4096));
    });
  }
}

/** Whether two texts that end with a line feed are the same. */
function same(one, from, other, at) {
  for (let n = 0; one[from + n] === other[at + n]; n++) if (one[from + n] === FEED) return true;
  return false;
}

/** The end of the line that begins at `from`, which is its line feed or the end of the bytes. */
export function lineEnd(bytes, from) {
  const feed = bytes.indexOf(FEED, from);
  return feed < 0 ? bytes.length : feed;
}
