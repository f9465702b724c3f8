// The field: the numbers of its lines and the marks under what is refused. They stand in a mirror that lies below the field.
import { $, element, fillByKeys } from './elements.js';
import { lineOf } from './answers.js';
import { field } from './field.js';
import { lastOf } from './split.js';
import { choose, chosenRow, state } from './state.js';

/** A wrapped text that is longer than this has no marks; nor has a line that is longer than that. */
const MARKED = 200000, MARKED_LINE = 4000;
/** The height of a line, and what is above the first, as page.css has them; and how many more lines than are seen the page has. */
const HEIGHT = 21, ABOVE = 12, MORE = 8;
/** About the width of a character. */
const WIDTH = 8.1;
const MOVES = new Set(['ArrowUp', 'ArrowDown', 'ArrowLeft', 'ArrowRight', 'Home', 'End', 'PageUp', 'PageDown']);

const mirror = $('mirror');
/** Where the field is scrolled to, and how high it is: to ask for it would lay out the page at each key. */
let scrolled = { top: 0, left: 0, height: 0 };

const lineText = (i) => field.value.slice(field.starts[i], i + 1 < field.starts.length ? field.starts[i + 1] - 1 : field.value.length);

/** What is marked in a line: where its row is refused, if that is there; and what it is, by a class. */
function marksOf(i) {
  const row = state.rows[lastOf(state.rows, ({ line }) => line <= i + 1)];
  if (!row || !row.answered) return { name: '', place: null };
  const at = row.place ? lineOf(row) : 0;
  if (at === i + 1) return { name: 'bad', place: [row.offset + row.place.start - field.starts[i], row.offset + row.place.stop - field.starts[i]] };
  if (row.line !== i + 1 || state.rows.length === 1) return { name: '', place: null };
  return { name: !row.accepted ? 'bad' : row.repeats ? 'twice' : 'good', place: null };
}

/** The text of a line, as far as the page needs it, and its mark. */
function contents(line, place) {
  if (!place || (field.isMany && place[0] > MARKED_LINE)) return [field.isMany ? '' : line || '\u200b'];
  const [start, stop] = [place[0], Math.min(place[1], line.length, field.isMany ? MARKED_LINE : Infinity)];
  return [line.slice(0, start), element('mark', { class: stop > start ? null : 'none' }, line.slice(start, stop)), field.isMany ? '' : line.slice(Math.max(start, stop)) || '\u200b'];
}

/** The key and the node of a line. */
function lineNode(i) {
  const { name, place } = marksOf(i);
  const line = place || !field.isMany ? lineText(i) : '';
  const make = () => {
    const inside = contents(line, place);
    const node = element('div', { class: name || null, 'data-n': i + 1 }, ...(field.isMany ? [element('span', {}, ...inside)] : inside));
    if (field.isMany) node.style.setProperty('top', `${ABOVE + i * HEIGHT}px`);
    return node;
  };
  return [`${field.isMany} ${i} ${name} ${place} ${line}`, make];
}

/** The lines that are seen stand in the mirror, each at its height. */
function showSeen() {
  const { top, left, height } = scrolled;
  const first = Math.max(0, Math.floor((top - ABOVE) / HEIGHT) - MORE);
  const last = Math.min(field.starts.length, Math.ceil((top + height) / HEIGHT) + MORE);
  fillByKeys(mirror, Array.from({ length: last - first }, (_, k) => lineNode(first + k)));
  mirror.style.setProperty('--top', `${-top}px`);
  mirror.style.setProperty('--left', `${-left}px`);
}

function follow() {
  const { scrollTop, scrollLeft, clientHeight } = field.scroller;
  scrolled = { top: scrollTop, left: scrollLeft, height: clientHeight };
  if (field.isMany) showSeen();
  else mirror.scrollTop = scrollTop;
}

/** Shows the numbers of the lines and the marks. */
export function showMarks() {
  const { value, starts } = field;
  if (field.isMany) {
    showSeen();
    return;
  }
  fillByKeys(mirror, value === '' || value.length > MARKED ? [] : starts.map((_, i) => lineNode(i)));
  mirror.scrollTop = scrolled.top;
}

/** Selects the place of the chosen row in the field, and scrolls to it. */
export function goToPlace() {
  const row = chosenRow();
  if (!row) return;
  const [start, stop] = row.place ? [row.place.start, row.place.stop] : [0, row.text.length];
  field.focus();
  field.select(row.offset + start, row.offset + stop);
  const line = row.place ? lineOf(row) : row.line;
  const { scroller, starts } = field;
  if (field.isMany) {
    scroller.scrollTop = (line - 1) * HEIGHT - 60;
    scroller.scrollLeft = Math.max(0, (row.offset + start - starts[line - 1]) * WIDTH - scroller.clientWidth / 2);
    return;
  }
  const mark = mirror.children[line - 1];
  if (mark) scroller.scrollTop = mark.offsetTop - 60;
}

export function goToNextRefusal() {
  for (let k = 1; k <= state.rows.length; k++) {
    const i = (state.chosen + k) % state.rows.length;
    if (state.rows[i].answered && !state.rows[i].accepted) {
      choose(i);
      goToPlace();
      return;
    }
  }
}

/** The row of the line in which the cursor stands, or -1. */
export function rowAtCursor() {
  const at = field.caret;
  const i = lastOf(state.rows, ({ offset }) => offset <= at);
  return i >= 0 && at <= state.rows[i].offset + state.rows[i].text.length ? i : -1;
}

function followCursor() {
  const i = state.rows.length > 1 ? rowAtCursor() : -1;
  if (i >= 0 && i !== state.chosen) choose(i);
}

export function startEditor() {
  for (const node of [$('text'), $('many')]) {
    node.addEventListener('keyup', (event) => {
      if (MOVES.has(event.key)) followCursor();
    });
    node.addEventListener('click', followCursor);
    node.addEventListener('scroll', follow);
    new ResizeObserver(follow).observe(node);
  }
}
