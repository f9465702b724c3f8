// What was done to the text, so that it can be undone: browsers keep no history of what a script puts into a field.
import { agreed } from './split.js';

/** So many changes are kept, with so many characters; and keys within so many milliseconds are undone at once. */
const KEPT = 1000, CHARACTERS = 1 << 26, PAUSE = 1000;

/** What of a text was changed: where, what was there, and what is there now. */
export function difference(before, now) {
  const least = Math.min(before.length, now.length);
  const at = agreed(least, (a, b) => before.slice(a, b) === now.slice(a, b));
  const same = agreed(least - at, (a, b) => before.slice(before.length - b, before.length - a) === now.slice(now.length - b, now.length - a));
  return { at, removed: before.slice(at, before.length - same), added: now.slice(at, now.length - same) };
}

/** Whether a change goes on with the one before it: in what that has typed, or beside what that has erased. */
function goesOn(last, { at, removed, added, kind, when }) {
  if (!last || kind === '' || kind !== last.kind || when - last.when > PAUSE || added.includes('\n')) return false;
  const end = at + removed.length;
  return kind === 'typed' ? at >= last.at && end <= last.at + last.added.length : at === last.at || end === last.at;
}

/** Two changes as one. */
function together(last, { at, removed, added, when }) {
  if (last.kind === 'erased') return { at, when, removed: at < last.at ? removed + last.removed : last.removed + removed };
  const from = at - last.at;
  return { when, added: last.added.slice(0, from) + added + last.added.slice(from + removed.length) };
}

const sizeOf = (changes) => changes.reduce((sum, { removed, added }) => sum + removed.length + added.length, 0);

export class History {
  #done = [];
  #undone = [];

  /** A change put `added` in the place of `removed` at a place; `selected` is what was selected before it. */
  add(change) {
    this.#undone = [];
    const last = this.#done.at(-1);
    if (goesOn(last, change)) Object.assign(last, together(last, change));
    else this.#done.push(change);
    while (this.#done.length > 1 && (this.#done.length > KEPT || sizeOf(this.#done) > CHARACTERS)) this.#done.shift();
  }

  /** The last change that isn't undone, or null. */
  undone() {
    const change = this.#done.pop() ?? null;
    if (change) this.#undone.push(change);
    return change;
  }

  /** The last change that was undone, or null. */
  redone() {
    const change = this.#undone.pop() ?? null;
    // What is typed from now on is undone for itself.
    if (change) this.#done.push(Object.assign(change, { kind: '' }));
    return change;
  }
}
