// A text, or a file, in other clothes: the page says what it is, and buttons turn it.
import { turnedText } from './answers.js';
import { $, button, count, element, number, short } from './elements.js';
import { field } from './field.js';
import { LOOKED, formsOf } from './takein.js';

const WORDS = {
  mark: ['The text begins with a byte order mark.', () => 'Take it off'],
  geojson: ['This is GeoJSON.', () => 'Turn it into WKT'],
  quotes: ['The texts stand in quotes.', () => 'Take them off'],
  csv: ['This is a table, a column of which has texts.', ({ name }) => `Take column “${short(name, 24)}”`],
};
const SHOWN = 5;

/** Words and buttons for the forms that were found; `take` is called with the one that is chosen. */
export function offerOf(forms, take) {
  const [words, label] = WORDS[forms[0].form];
  return [element('span', {}, words), ...forms.slice(0, SHOWN).map((form) => button(label(form), {}, () => take(form)))];
}

/** Words about what was left out. */
export const leftWords = (left) =>
  `${number(left.length)} left out: ${left.slice(0, SHOWN).map((it) => short(it, 160)).join('; ')}${left.length > SHOWN ? '; …' : '.'}`;

const forget = () => {
  $('offer').hidden = true;
  $('offer').replaceChildren();
};

/** Why a text couldn't be turned is said of that text alone. */
const forgetFailure = () => $('offer').querySelector('.failed')?.remove();

let offered = '', looked = '';

/** Looks at the field's text; `put` puts what it is turned into in its place. */
export function showOffer(text, put) {
  forgetFailure();
  const front = `${text.length > LOOKED} ${text.slice(0, LOOKED)}`;
  if (front === looked) return;
  looked = front;
  const forms = formsOf(text.slice(0, LOOKED), text.length > LOOKED);
  const key = JSON.stringify(forms);
  if (key === offered && forms.length > 0) return;
  offered = key;
  if (forms.length === 0) {
    forget();
    return;
  }
  $('offer').hidden = false;
  $('offer').replaceChildren(...offerOf(forms, async (form) => {
    const { texts, left, failed } = await turnedText(field.value, form);
    if (failed) {
      forgetFailure();
      $('offer').append(element('p', { class: 'failed' }, short(failed, 200)));
      return;
    }
    put(texts.join('\n'));
    offered = looked = '';
    $('offer').hidden = false;
    $('offer').replaceChildren(element('p', {}, `${count(texts.length, 'text')} taken. ${left.length > 0 ? leftWords(left) : ''}`));
    field.focus();
  }));
}
