// The answers to what stands in the field: only what was changed is answered anew, in a worker, or at once where it is short.
import { load } from '../javascript/src/index.js';
import { answerTo } from './answer.js';
import { $ } from './elements.js';
import { grouped } from './causes.js';
import { changedPieces } from './split.js';
import { started, state } from './state.js';

/** Texts that have so many characters together are answered at once: then the answer is shown with what was typed. */
const SHORT = 2000;

export const places = () => Number($('places').value);

/** The dialects that are asked for, as `canonical` takes them. */
export const dialects = () => [...$('dialects').querySelectorAll(':checked')].map((box) => box.value).join(',');

export function setDialects(names) {
  for (const box of $('dialects').querySelectorAll('input')) box.checked = names.split(',').includes(box.value);
}

/** How a text is read. */
export const reading = () => ({ places: places(), dialect: dialects() });

/** How the user wants the text split: `auto`, `lines` or `one`. */
export const askedSplit = () => $('split').querySelector(':checked').value;

export function setSplit(split) {
  $('split').querySelector(`[value=${split}]`).checked = true;
}

let desk = null;
let loading = null, wkt = null; // the module here, once something was answered
let asked = ''; // how the texts were asked for
let before = ''; // what stood in the field then
let ids = 0;
const byId = new Map();
const numbers = new Map(); // of canonical texts
let open = 0; // how many rows aren't answered
let settle = () => {};
const waiting = []; // who waits until all is answered
let others = {};

/** Starts the worker. `settled` is called when all is answered, and `on` has functions for what else it says, by names. */
export function startDesk(canvas, settled, on) {
  settle = settled;
  others = on;
  desk = started('desk', { canvas }, [canvas]);
  desk.onmessage = ({ data }) => {
    if (data.answers) takeAnswers(data.answers);
    for (const [name, said] of Object.entries(data)) others[name]?.(said);
  };
  desk.onerror = (event) => others.failed?.(event.message);
}

export const tellDesk = (message) => desk.postMessage(message);

function takeAnswers(answers) {
  const before = open;
  for (const [id, answer] of answers) {
    const row = byId.get(id);
    if (!row || row.answered) continue; // it was changed since, or answered at once
    Object.assign(row, answer, { answered: true });
    open--;
    if (!row.accepted) continue;
    if (!numbers.has(row.canonical)) numbers.set(row.canonical, numbers.size);
    row.number = numbers.get(row.canonical);
  }
  if (open === 0 && before > 0) finish();
}

function finish() {
  const first = new Int32Array(numbers.size); // the line of each canonical text, or 0
  const refused = [];
  let [repeats, spread] = [0, false];
  for (const row of state.rows) {
    row.repeats = row.accepted ? first[row.number] || null : null;
    if (!row.accepted) refused.push(row);
    else if (row.repeats) repeats++;
    else first[row.number] = row.line;
    spread ||= row.spread;
  }
  state.counted = { refused: refused.length, repeats, spread, causes: grouped(refused) };
  state.settled = true;
  settle();
  goOn();
  loading ??= load(state.module).then((it) => {
    wkt = it;
  });
}

function goOn() {
  for (const go of waiting.splice(0)) go();
}

/** Waits until all is answered. */
export const whenSettled = () => new Promise((go) => (state.settled ? go() : waiting.push(go)));

/** A slice would keep all of the text that it was cut from. */
const copyOf = (slice) => ` ${slice}`.slice(1);

/** All rows have one form, whatever their answer: that is faster. */
const newRow = ({ text, offset, line }) => ({ id: ++ids, text: copyOf(text), offset, line, spread: text.includes('\n'), answered: false,
  accepted: false, canonical: '', facts: null, number: -1, repeats: null, words: '', status: 0, place: null, cause: '' });

/** Answers a text. Pieces that were there before the last change keep their answers. `more` makes what the worker is told beside it. */
export function answer(text, more) {
  const split = askedSplit();
  const how = `${places()} ${dialects()} ${split}`;
  const old = how === asked ? state.rows : [];
  const { front, back, pieces, moved, lines } = changedPieces(before, old, text, split);
  const removed = state.rows.slice(front, state.rows.length - back);
  [asked, before] = [how, text];
  for (const row of removed) {
    byId.delete(row.id);
    if (!row.answered) open--;
  }
  if (byId.size === 0) numbers.clear();
  const added = pieces.map(newRow);
  open += added.length;
  for (const row of added) byId.set(row.id, row);
  const rest = state.rows.slice(state.rows.length - back);
  for (const row of rest) row.offset += moved;
  if (lines !== 0) for (const row of rest) row.line += lines;
  state.rows = state.rows.slice(0, front).concat(added, rest);
  if (removed.length > 0 || added.length > 0) {
    tellDesk({ change: { from: front, removed: removed.length, added: added.map((row) => [row.id, row.text]), reading: reading() }, ...more() });
  }
  state.settled = open === 0;
  if (state.settled) finish();
  else if (wkt && added.length === open && added.reduce((sum, row) => sum + row.text.length, 0) < SHORT) {
    takeAnswers(added.map((row) => [row.id, answerTo(wkt, row.text, reading()).answer]));
  }
}

/** Forgets all texts, since a file is read. */
export function forget() {
  if (state.rows.length > 0) tellDesk({ change: { from: 0, removed: state.rows.length, added: [], reading: reading() } });
  Object.assign(state, { rows: [], chosen: -1, settled: true });
  byId.clear();
  numbers.clear();
  open = 0;
  goOn();
}

/** The line of the field, from 1 on, at which a row is refused. */
export const lineOf = (row) => row.line + row.place.line - 1;

let turns = 0;
const turning = new Map();

/** What the worker makes of a text in another form. */
export function turnedText(text, form) {
  turns++;
  tellDesk({ turn: { text, form, places: places(), number: turns } });
  return new Promise((done) => turning.set(turns, done));
}

export function takeTurned({ number, ...said }) {
  turning.get(number)?.(said);
  turning.delete(number);
}
