// The table of lines. Only those that are seen, and some around them, stand in the document.
import { $, button, colored, count, element, fill, fillByKeys, number, printable, withoutCode } from './elements.js';
import { reading } from './answers.js';
import { causeTable, onCause, sentenceOf } from './causes.js';
import { choose, state } from './state.js';
import { speak, withAxes } from './verdict.js';

/** The height of a row, as page.css has it, and how many more than are seen the page has. */
const HEIGHT = 33, MORE = 10;
const FILTERS = {
  all: () => true,
  refused: (row) => row.answered && !row.accepted,
  repeats: (row) => Boolean(row.repeats),
};
const scroller = $('rows-scroll');
let filter = 'all'; // one of FILTERS, or a cause
let shown = []; // the places of the rows that the filter takes
const all = []; // the places of all
/** Where the table is scrolled to, and how high it is: to ask for it would lay out the page at each key. */
let scrolled = { top: 0, height: 420 };

const takes = (row) => (FILTERS[filter] ? FILTERS[filter](row) : row.cause === filter);

function filterTo(name) {
  filter = name;
  scroller.scrollTop = scrolled.top = 0;
  showRows();
}

function filterButtons({ refused, repeats, causes }) {
  const chosen = causes.find(({ cause }) => cause === filter);
  const some = [['all', state.rows.length], ['refused', refused], ['repeats', repeats], [filter, chosen?.n ?? 0]].filter(([, n]) => n > 0);
  if (!some.some(([name]) => name === filter)) filter = 'all';
  return some.map(([name, n]) => button(`${name} ${number(n)}`, { 'aria-pressed': String(filter === name), 'data-filter': name }, () => {
    filterTo(name);
    document.querySelector(`[data-filter=${name}]`)?.focus();
  }));
}

/** Shows the lines with a cause alone, and all of them where those are shown already. */
function pickCause(cause) {
  filterTo(filter === cause ? 'all' : cause);
  if (filter !== cause) {
    speak(`All ${count(shown.length, 'line')} are shown.`);
    return;
  }
  choose(shown[0]);
  speak(`${count(shown.length, 'line')} shown: ${withoutCode(sentenceOf(cause, reading()))}.`);
}

/** The table of causes, where one has several lines: else the table of lines says all of it. */
function showCauses({ refused, causes }) {
  const some = causes.length < refused;
  $('causes').hidden = !some;
  fill($('causes'), some ? causeTable(causes, reading(), filter) : '');
}

function answerCell(row, i) {
  if (!row.answered) return element('span', { class: 'chip' }, '…');
  if (!row.accepted) return element('span', { class: 'chip bad-text' }, element('i'), row.place ? `refused at ${number(row.place.column)}` : 'refused');
  const { kind, dimension } = row.facts;
  const repeat = row.repeats ? element('span', { class: 'note-text' }, `= line ${row.repeats}`) : null;
  return colored(element('span', { class: 'chip' }, element('i'), kind + withAxes(dimension), repeat), i);
}

function tableRow(row, i, at, reached) {
  // Firefox doesn't name a row by what it holds.
  const [line, answer, text] = i === reached ? ['row-line', 'row-answer', 'row-text'] : [];
  const name = line && `${line} ${answer} ${text}`;
  return element('tr', { 'aria-selected': String(i === state.chosen), tabindex: i === reached ? 0 : -1, 'data-i': i, 'aria-rowindex': at + 2, 'aria-labelledby': name },
    element('td', { class: 'n', id: line }, String(row.line)), element('td', { id: answer }, answerCell(row, i)),
    element('td', { class: 'n' }, row.accepted ? number(row.facts.points) : ''),
    element('td', { class: 'text', id: text }, printable(row.text.slice(0, 200).replace(/[\t\r\n]/g, ' '))));
}

/** What stands for rows that aren't seen. */
function space(where, rows) {
  const make = () => {
    const node = element('tr', { class: 'space', 'aria-hidden': 'true' }, element('td', { colspan: 4 }));
    node.style.setProperty('height', `${rows * HEIGHT}px`);
    return node;
  };
  return rows > 0 ? [[`${where} ${rows}`, make]] : [];
}

function showSeen() {
  const focused = $('rows').contains(document.activeElement);
  const first = Math.max(0, Math.min(shown.length - 1, Math.floor(scrolled.top / HEIGHT)) - MORE);
  const last = Math.min(shown.length, first + Math.ceil(scrolled.height / HEIGHT) + 2 * MORE);
  const seen = shown.slice(first, last);
  // By the keyboard one row is reached, and from it the others.
  const reached = seen.includes(state.chosen) ? state.chosen : seen[0];
  const nodes = seen.map((i, k) => {
    const row = state.rows[i];
    const key = [row.id, i, first + k, row.line, row.answered, row.repeats, i === state.chosen, i === reached].join();
    return [key, () => tableRow(row, i, first + k, reached)];
  });
  fillByKeys($('rows'), [...space('before', first), ...nodes, ...space('after', shown.length - last)]);
  if (focused) $('rows').querySelector('[tabindex="0"]')?.focus({ preventScroll: true });
}

export function showRows() {
  $('rows-card').hidden = state.rows.length < 2;
  if (state.rows.length < 2) {
    fillByKeys($('rows'), []);
    shown = [];
    return;
  }
  fill($('filters'), ...filterButtons(state.counted));
  showCauses(state.counted);
  while (all.length < state.rows.length) all.push(all.length);
  all.length = state.rows.length;
  shown = filter === 'all' ? all : all.filter((i) => takes(state.rows[i]));
  $('table').setAttribute('aria-rowcount', shown.length + 1);
  showSeen();
}

/** Chooses a row by its place among those that are shown, and scrolls to it. */
function goTo(at) {
  const to = Math.max(0, Math.min(shown.length - 1, at));
  const head = $('table').tHead.offsetHeight;
  const top = to * HEIGHT;
  if (top < scroller.scrollTop) scroller.scrollTop = top;
  else if (top + HEIGHT + head > scroller.scrollTop + scroller.clientHeight) scroller.scrollTop = top + HEIGHT + head - scroller.clientHeight;
  scrolled.top = scroller.scrollTop;
  choose(shown[to]);
  $('rows').querySelector(`[data-i="${state.chosen}"]`)?.focus({ preventScroll: true });
}

/** The table chooses rows, by pointer and keys; `go` shows the place of the chosen one in the text. */
export function startRows(go) {
  const follow = () => {
    scrolled = { top: scroller.scrollTop, height: scroller.clientHeight || scrolled.height };
    if (state.settled) showSeen(); // else its rows may be gone
  };
  scroller.addEventListener('scroll', follow);
  onCause($('causes'), pickCause);
  $('rows').addEventListener('click', (event) => {
    const row = event.target.closest('tr[data-i]');
    if (row) choose(Number(row.dataset.i));
  });
  $('rows').addEventListener('keydown', (event) => {
    const row = event.target.closest('tr[data-i]');
    if (!row) return;
    const at = shown.indexOf(Number(row.dataset.i));
    const page = Math.floor(scroller.clientHeight / HEIGHT) - 1;
    const next = { ArrowDown: at + 1, ArrowUp: at - 1, PageDown: at + page, PageUp: at - page, Home: 0, End: shown.length - 1 }[event.key];
    if (event.key === 'Enter') {
      choose(Number(row.dataset.i));
      go();
    } else if (next !== undefined) {
      goTo(next);
    } else {
      return;
    }
    event.preventDefault();
  });
}
