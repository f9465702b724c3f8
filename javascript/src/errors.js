// What is thrown where there is no answer.
import { MESSAGES } from './names.js';

/** The words of a status: of one that only a later module has, its number. */
export const wordsOf = (status) => MESSAGES[status] || `Status ${status}`;

/** A text, or arrays, without an answer. */
export class WktError extends Error {
  /**
   * @param {number} status the number of the reason, in STATUS; 1 to 14: the text is refused
   * @param {import('./index.js').Explanation | null} [place] where in the text, and why
   * @param {string} [words] the words of the status
   */
  constructor(status, place = null, words = wordsOf(status)) {
    // A worker that posts an error posts its message and its cause alone.
    super(place ? place.cause : words, { cause: { status, place, words } });
    this.status = status;
    this.words = words;
    this.place = place;
  }

  /** The error that a worker posted, as it came, or as `{ ...error }`. */
  static from(posted) {
    const { status, place, words } = posted.cause ?? posted;
    if (!Number.isInteger(status)) throw new TypeError('what was posted is no WktError');
    return new WktError(status, place, words);
  }

  /** Why the text is refused, in a user's words; '' where that isn't known. */
  get hint() {
    return this.place ? this.place.hint : '';
  }

  /** The line of the text with a mark below the place; '' where no place is known. */
  get caret() {
    return this.place ? this.place.caret : '';
  }
}
WktError.prototype.name = 'WktError';

/** What GeoJSON has no form for, or what is no geometry of GeoJSON. */
export class GeoJSONError extends Error {}
GeoJSONError.prototype.name = 'GeoJSONError';
