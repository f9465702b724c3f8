// A file: its answers as the worker finds them.
import { askedSplit, forget, reading } from './answers.js';
import { LISTED } from './block.js';
import { boundsInWords } from './canonical.js';
import { causeTable, onCause, sentenceOf } from './causes.js';
import { $, count, element, fill, number, printable, short, withoutCode, wordIn } from './elements.js';
import { field } from './field.js';
import { giveOf } from './give.js';
import { leftWords, offerOf } from './offer.js';
import { fit, showPoints } from './picture.js';
import { splitOfFront } from './split.js';
import { show, started, state } from './state.js';
import { TURNED, notReadWords } from './takein.js';
import { repeatsInWords, say, speak } from './verdict.js';

/** So much of a file is looked at to see whether it is one geometry, and so much to see whether its lines are long. */
const FRONT = 64 << 10, LONG = 1 << 20;
/** For each part of a file of that size there is one worker more, up to so many. */
const PER_WORKER = 32 << 20, MOST_WORKERS = 4;
/** A worker that was asked to stop, and hasn't in so many milliseconds, is ended. */
const PATIENCE = 2000;
const FEED = 10, RETURN = 13;

const WITHOUT_FILE = $('text').placeholder;

// The number of what is under way, one thing at a time: an answer that comes late belongs to another.
let job = 0;
let worker = null;
let helpers = [];
let saved = null; // the canonical lines, and the address of them once it is asked for
let name = '';
let opened = null; // the file, how many others were dropped with it, and the form that it is turned from
let drawn = false; // whether points of the file are drawn
let told = null; // what the worker said last, and the lists that it said last
let cause = null; // the refusals with that one are listed alone

function stopWorker() {
  for (const it of [worker, ...helpers]) it?.terminate();
  worker = null;
  helpers = [];
}

/** Starts a worker, and those that help it where the file is large and has many lines. */
function start(file, many, asked) {
  const most = Math.min(MOST_WORKERS, Math.max(1, (navigator.hardwareConcurrency || 2) - 1));
  const n = many ? Math.min(most, 1 + Math.floor(file.size / PER_WORKER)) : 1;
  const channels = n > 1 ? Array.from({ length: n }, () => new MessageChannel()) : [];
  helpers = channels.map(({ port1 }) => started('helper', { port: port1, reading: reading() }, [port1]));
  const ports = channels.map(({ port2 }) => port2);
  return started('file', { file, reading: reading(), ports, ...asked }, ports);
}

/** Begins something that ends what is under way. What it returns says whether it is still that. */
export function begin() {
  stopWorker();
  const mine = ++job;
  return () => mine === job;
}

/** Forgets the file. */
export function closeFile() {
  const current = begin();
  if (!state.file) return current;
  if (saved?.address) URL.revokeObjectURL(saved.address);
  saved = told = cause = null;
  opened = null;
  state.file = false;
  showPoints(null, 0);
  giveOf(null);
  $('file-card').hidden = true;
  document.body.classList.remove('has-file');
  $('text').placeholder = WITHOUT_FILE;
  return current;
}

/** What is shown of a file before anything of it is read. */
function showOpened() {
  document.body.classList.add('has-file');
  $('text').placeholder = 'Type or paste here to close the file';
  for (const id of ['caret', 'hint', 'save', 'next', 'offer']) $(id).hidden = true;
  $('file-card').hidden = $('stop').hidden = false;
  field.invalid(false);
  $('verdict').setAttribute('aria-busy', 'false');
  $('h-file').textContent = name;
  const found = element('div', { class: 'file', id: 'found' });
  const lists = element('div', { class: 'file', id: 'lists' }, found);
  for (const it of [found, lists]) it.style.setProperty('padding', '0');
  $('file-out').replaceChildren(element('progress', { max: 1, value: 0, 'aria-label': 'How much of the file is read', id: 'bar' }),
    element('p', { id: 'told' }), element('div', { class: 'meter', id: 'meter' }), lists);
}

const HOW = { one: 'The whole file is one text.', lines: 'Each line is a text.', pieces: 'A text ends where its parentheses close.' };

/** A file with line feeds in place of carriage returns, where it has these alone: old programs for the Mac end lines so. */
async function withFeeds(file, front) {
  if (file.size > TURNED || front.includes('\n') || !front.includes('\r')) return file;
  const bytes = new Uint8Array(await file.arrayBuffer());
  if (bytes.includes(FEED)) return file;
  for (let i = bytes.indexOf(RETURN); i >= 0; i = bytes.indexOf(RETURN, i + 1)) bytes[i] = FEED;
  return new File([bytes], file.name);
}

const notRead = (more) => (more > 0 ? ` ${count(more, 'other file')} that came with it ${more === 1 ? 'is' : 'are'} not read.` : '');

/** Reads a file, of any size. `more` others were dropped with it; `form` is what it is turned from. */
export async function readFile(given, more = 0, form = null) {
  const current = closeFile();
  forget();
  state.file = true;
  drawn = false;
  opened = { file: given, more, form };
  name = printable(given.name);
  showOpened();
  showPoints(new Float64Array(0), 0);
  giveOf({ lines: null });
  show();
  fit();
  const asked = askedSplit();
  try {
    const file = await withFeeds(given, await given.slice(0, FRONT).text());
    // Without its byte order mark a file is split as with it.
    const isLines = form && form.form !== 'mark';
    const split = isLines ? 'lines' : asked === 'auto' ? splitOfFront(await file.slice(0, FRONT).text(), file.size > FRONT) : asked;
    if (!current()) return;
    opened.file = file;
    say('idle', `Reading ${short(name, 60)}`, HOW[split] + notRead(more));
    const many = !form && split === 'lines' && new Uint8Array(await file.slice(0, LONG).arrayBuffer()).includes(FEED);
    if (!current()) return;
    worker = start(file, many, { split, form: split === 'pieces' ? { form: 'pieces', ...form, pieces: true } : form });
    worker.onmessage = ({ data }) => current() && (data.failed ? fail(data.failed) : take(data));
    for (const it of [worker, ...helpers]) it.onerror = (event) => current() && fail(event.message || 'The worker stopped.');
  } catch (error) {
    if (current()) fail(notReadWords(error));
  }
}

/** Reads the file once more, as it is asked for now. False: none is open. */
export function rereadFile() {
  if (!opened) return false;
  readFile(opened.file, opened.more, opened.form);
  return true;
}

function fail(words) {
  stopWorker();
  $('stop').hidden = true;
  say('bad', `${short(name, 60)} can’t be read`, words);
}

const megabytes = (bytes) => (bytes / 1e6).toLocaleString('en', { minimumFractionDigits: 1, maximumFractionDigits: 1 });

function cell(words, n, kind = null) {
  return element('div', {}, element('b', { class: n > 0 ? kind : null }, n === null ? '…' : number(n)), element('span', {}, words));
}

function take(data) {
  told = { lists: told?.lists, ...data };
  const { done, read, size } = data;
  // A line is read, and then answered: each is half of the work.
  $('bar').value = size > 0 ? (read + done) / size / 2 : 1;
  const rate = done / 1e6 / Math.max(data.seconds, 1e-3);
  $('told').textContent = done === 0 && read > 0 ? `${megabytes(read)} of ${megabytes(size)} MB read`
    : `${megabytes(done)} of ${megabytes(size)} MB in ${data.seconds.toFixed(1)} s, ${rate < 10 ? rate.toFixed(1) : number(Math.round(rate))} MB/s`;
  fill($('meter'), cell('lines', data.lines), cell('accepted', data.accepted), cell('refused', data.refused, 'bad-text'),
    cell('repeats', data.repeats, 'note-text'), cell('points', data.lists?.points ?? 0), ...(data.blank > 0 ? [cell('blank', data.blank)] : []));
  if (data.lists) {
    showLists();
    showPoints(data.lists.sample, data.lists.points);
    if (!drawn || data.last) fit();
    drawn = data.lists.points > 0;
  }
  if (data.last) finish(data);
}

function showLists() {
  const { lists } = told;
  fill($('found'), ...kindsAndBounds(lists), ...causes(told, lists), ...refusals(told, lists), ...repeats(told, lists));
}

function pickCause(picked) {
  cause = cause === picked ? null : picked;
  showLists();
  speak($('refused-lines').textContent + (cause === null ? '' : `: ${withoutCode(sentenceOf(cause, reading()))}`));
}

function kindsAndBounds({ kinds, bounds }) {
  const said = Object.entries(kinds).map(([kind, n]) => `${kind} ${number(n)}`).join(' · ');
  const around = boundsInWords(bounds);
  return [said, around && `Bounds: ${around}`].filter(Boolean).map((words) => element('p', {}, words));
}

const section = (heading, ...nodes) => element('section', {}, element('h3', {}, heading), ...nodes);

function causes(data, { causes: found, asked }) {
  if (asked < 2) return [];
  return [section(asked < data.refused ? `Why the first ${number(asked)} are refused` : 'Why lines are refused', causeTable(found, reading(), cause))];
}

/** The first refusals; or those with the chosen cause, among all that are known. */
function refusals(data, { refusals: listed, causes: found }) {
  const all = cause === null ? data.refused : found.find((it) => it.cause === cause)?.n ?? 0;
  const first = cause === null ? listed : (data.whys ?? listed).filter((why) => why.cause === cause).slice(0, LISTED);
  if (all === 0) return [];
  const what = cause === null ? count(all, 'refused line') : `${count(all, 'line')} refused by ${cause}`;
  const head = element('h3', { id: 'refused-lines' }, first.length < all ? `The first ${first.length} of ${what}` : what);
  const block = element('div', { class: 'refusals', tabindex: 0, role: 'region', 'aria-label': 'Refused lines' });
  for (const { line, column, expected, found, hint, caret } of first) {
    const word = wordIn(found);
    const says = word ? `, and not ${word}` : '';
    block.append(element('b', {}, `line ${number(line)}, column ${number(column)}: ${withoutCode(expected)} was expected${says}`), `\n${caret}\n`, hint ? `why: ${hint}\n\n` : '\n');
  }
  return [element('section', {}, head, block)];
}

function repeats(data, { repeats: first, entered }) {
  const said = [];
  if (first.length > 0) {
    const listed = first.slice(0, 12).map(([line, earlier]) => `line ${number(line)} = line ${number(earlier)}`).join(', ');
    said.push(element('p', {}, listed + (data.repeats > 12 ? ' …' : '')));
  }
  if (entered !== null) {
    said.push(element('p', {}, `Repeats were looked for among the first ${count(entered, 'geometry', 'geometries')}: more don’t fit in the memory that this page takes.`));
  }
  return said.length > 0 ? [section('Repeats', ...said)] : [];
}

function finish(data) {
  stopWorker();
  const focused = document.activeElement === $('stop');
  $('stop').hidden = true;
  if (focused) $('h-file').focus();
  const lines = data.lines - data.blank;
  others(data);
  const stopped = data.stopped ? 'Stopped: ' : '';
  const repeated = data.repeats === null ? 'Repeats were not looked for.' : repeatsInWords(data.repeats);
  if (lines === 0) say('idle', data.stopped ? 'Stopped before anything was answered' : `${short(name, 60)} has no text`);
  else if (lines === 1 && data.refused === 1) say('bad', 'The text is refused');
  else if (data.refused > 0) say('bad', `${stopped}${number(data.refused)} of ${count(lines, 'line')} refused`, repeated);
  else say('good', `${stopped}${lines === 1 ? 'The text is' : `All ${count(lines, 'line')}`} accepted`, lines === 1 ? '' : repeated);
  offer(data);
}

/** The canonical lines as one. They are put together when they are wanted. */
const linesOf = () => (saved.blob ??= new Blob(saved.parts.splice(0), { type: 'text/plain' }));

/** Says what else the file is, and what had no text. */
function others({ forms, left, numbers, saved: parts, whys, refused }) {
  const { file, more } = opened;
  saved = parts && { parts };
  if (forms.length > 0) $('lists').prepend(element('div', { class: 'offer' }, ...offerOf(forms, (form) => readFile(file, more, form))));
  for (const words of [left.length > 0 && leftWords(left), notRead(more)].filter(Boolean)) $('lists').append(element('p', {}, words));
  giveOf({ name: file.name.replace(/\.[^.]*$/, ''), lines: saved ? linesOf : null, numbers, whys, refused });
}

/** Offers the canonical lines to be saved. */
function offer(data) {
  if (data.saved === null) {
    $('lists').append(element('p', {}, 'The canonical lines are more than 1 GB, so they are not kept here. The program wktstream writes them.'));
  }
  if (!saved) return;
  $('save').href = '#';
  $('save').download = `${opened.file.name.replace(/\.[^.]*$/, '')}.canonical.wkt`;
  $('save').title = data.refused > 0 ? 'For each line its canonical text, or the word refused' : 'For each line its canonical text';
  $('save').hidden = data.lines === 0;
}

/** Stops, also where the worker is in the middle of a long line. */
function stop() {
  const stopped = worker;
  stopped?.postMessage({ stop: true });
  setTimeout(() => {
    if (stopped && stopped === worker) finish({ lines: 0, blank: 0, refused: 0, ...told, repeats: null, stopped: true, forms: [], left: [], whys: [] });
  }, PATIENCE);
}

export function startFiles() {
  $('stop').addEventListener('click', stop);
  onCause($('file-out'), pickCause);
  $('save').addEventListener('click', () => {
    saved.address ??= URL.createObjectURL(linesOf());
    $('save').href = saved.address;
  });
}
