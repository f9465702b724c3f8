// The causes of refusals: stable words, as every language has them, by which refused lines are grouped.
import { EXPECTED, EXPECTED_WORDS, HINTS, HINT_WORDS, MESSAGES, STATUS } from '../javascript/src/names.js';
import { withBox } from './dialects.js';
import { element, number, withCode } from './elements.js';

const SENTENCES = new Map([
  ...HINT_WORDS.map((word, i) => [word, HINTS[i]]),
  ...EXPECTED_WORDS.map((word, i) => [`expected_${word}`, `${EXPECTED[i]} was expected`]),
  ...[['not_whole', MESSAGES[STATUS.NOT_WHOLE]], ['not_utf8', MESSAGES[STATUS.NOT_UTF8]]].map(([word, said]) => [word, said[0].toLowerCase() + said.slice(1)]),
]);

/** What a cause says of each text that has it; of one that only a later module has, the word. */
export const sentenceOf = (cause, { places, dialect }) => withBox(SENTENCES.get(cause)?.replace('%u', places) ?? cause, cause, dialect);

/** Refusals by their causes: how many there are, and the line of the first. The most frequent cause comes first. */
export function grouped(refusals) {
  const groups = new Map();
  for (const { cause, line } of refusals) {
    const group = groups.get(cause);
    if (group) group.n++;
    else groups.set(cause, { cause, n: 1, first: line });
  }
  return [...groups.values()].sort((a, b) => b.n - a.n || a.first - b.first);
}

/** A table of causes. One may be chosen, by a button: then its refusals are shown alone. */
export function causeTable(groups, reading, chosen) {
  const rows = groups.map(({ cause, n, first }) => element('tr', { 'data-cause': cause, class: cause === chosen ? 'chosen' : null },
    element('td', {}, element('button', { class: 'button', type: 'button', 'aria-pressed': String(cause === chosen) }, cause)),
    element('td', { class: 'why' }, ...withCode(sentenceOf(cause, reading))),
    element('td', { class: 'n' }, number(n)), element('td', { class: 'n' }, number(first))));
  const head = [['Cause'], ['Why'], ['Lines', 'n'], ['First', 'n']].map(([words, name]) => element('th', { scope: 'col', class: name }, words));
  return element('table', { class: 'causes', 'aria-label': 'Causes of refusals' }, element('thead', {}, element('tr', {}, ...head)), element('tbody', {}, ...rows));
}

/** Calls a function with the cause whose row is clicked. Its button keeps the focus, though the table is made anew. */
export function onCause(node, pick) {
  node.addEventListener('click', (event) => {
    const cause = event.target.closest('tr[data-cause]')?.dataset.cause;
    if (!cause) return;
    pick(cause);
    node.querySelector(`tr[data-cause="${cause}"] button`)?.focus();
  });
}
