// The texts of the field, in a worker: each is answered once. What the picture needs of the answers stays here.
import { answerTo } from './answer.js';
import { isRefusal } from './block.js';
import { Range, boundsOf } from './range.js';
import { Summary } from './summary.js';

/** For how many milliseconds it answers, before it looks what else is asked. */
const SLICE = 12;

const channel = new MessageChannel();
let waiting = [];
channel.port1.onmessage = () => {
  const all = waiting;
  waiting = [];
  for (const go of all) go();
};

/** Lets the worker take its messages. */
export const pause = () => new Promise((go) => {
  if (waiting.push(go) === 1) channel.port2.postMessage(0);
});

export class Desk {
  /** The texts in their order: id, text, accepted, canonical, summary. One that isn't answered yet is not accepted. */
  rows = [];

  #wkt;
  #post;
  #answered;
  #reading = { places: 18, dialect: '' };
  #left = [];
  #working = false;

  /** `post` sends the answers away, and `answered` is called when all are there. */
  constructor(wkt, post, answered) {
    this.#wkt = wkt;
    this.#post = post;
    this.#answered = answered;
  }

  /** Puts some texts in the place of others. */
  change({ from, removed, added, reading }) {
    this.#reading = reading;
    const rows = added.map(([id, text]) => ({ id, text, accepted: false, front: undefined, gone: false }));
    for (let i = from; i < from + removed; i++) this.rows[i].gone = true;
    this.rows = [...this.rows.slice(0, from), ...rows, ...this.rows.slice(from + removed)];
    this.#left.push(...rows);
    this.#work();
  }

  async #work() {
    if (this.#working) return;
    this.#working = true;
    let next = 0;
    do {
      const said = [];
      const until = performance.now() + SLICE;
      while (next < this.#left.length && performance.now() < until) {
        const row = this.#left[next++];
        if (!row.gone) said.push([row.id, this.#answer(row)]);
      }
      const left = this.#left.length - next;
      if (left === 0) this.#left = [];
      this.#post({ answers: said, ...(left === 0 ? { totals: this.#totals() } : {}) });
      if (left > 0) await pause();
    } while (next < this.#left.length);
    this.#working = false;
    this.#answered();
  }

  #answer(row) {
    const { summary, answer } = answerTo(this.#wkt, row.text, this.#reading);
    const { accepted, canonical, place } = answer;
    Object.assign(row, { accepted, canonical, place, summary });
    return answer;
  }

  /** What all accepted texts hold together. */
  #totals() {
    const ranges = [0, 1, 2, 3].map(() => new Range());
    let [geometries, points] = [0, 0];
    for (const { accepted, summary } of this.rows) {
      if (!accepted) continue;
      geometries++;
      points += summary.points;
      [summary.x, summary.y, summary.z, summary.m].forEach((range, i) => ranges[i].join(range));
    }
    return { geometries, points, bounds: boundsOf(ranges) };
  }

  /** What the picture shows of a row: its canonical text and what that holds, or those of the part before its refusal, or null. */
  shapeOf(row) {
    if (row.accepted) return row;
    if (row.front === undefined) {
      const canonical = row.place ? this.#readOfRefused(row) : null;
      row.front = canonical && { canonical, summary: new Summary(canonical) };
    }
    return row.front;
  }

  /** The front of a refused text with its open parentheses closed, if that is accepted: its canonical text, or null. */
  #readOfRefused({ text, place }) {
    const front = text.slice(0, place.start);
    // All that is before the place, else all before the last comma.
    for (const end of [front.length, front.lastIndexOf(',')]) {
      let depth = 0;
      for (let i = 0; i < end; i++) depth += { '(': 1, ')': -1 }[front[i]] ?? 0;
      if (end <= 0 || depth < 0) continue;
      try {
        return this.#wkt.canonical(front.slice(0, end) + ')'.repeat(depth), { ...this.#reading, whole: true });
      } catch (error) {
        if (!isRefusal(error)) throw error;
      }
    }
    return null;
  }
}
