// The answer to one text: what the page shows of it.
import { causeOf, isRefusal } from './block.js';
import { withBox } from './dialects.js';
import { boundsOf } from './range.js';
import { Summary } from './summary.js';

const factsOf = ({ leaves, x, y, z, m, ...counts }) =>
  ({ ...counts, lines: leaves.some((leaf) => !leaf.area && !leaf.dots), bounds: boundsOf([x, y, z, m]) });

/** The answer to a text, and the summary of one that is accepted. `reading`: the places and the dialects that are asked for. */
export function answerTo(wkt, text, reading) {
  try {
    const canonical = wkt.canonical(text, { ...reading, whole: true });
    const summary = new Summary(canonical);
    return { summary, answer: { accepted: true, canonical, facts: { ...factsOf(summary), srid: reading.dialect.includes('srid') ? wkt.srid(text) : null } } };
  } catch (error) {
    if (!isRefusal(error)) throw error;
    const { words, status, place } = error;
    const cause = causeOf(error);
    return { answer: { accepted: false, words, status, place: place && { ...place, hint: withBox(place.hint, cause, reading.dialect) }, cause } };
  }
}
