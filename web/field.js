// The text, and the field in which it stands: a textarea, or, where it has many lines, one that lays out only those in
// view. Both have one history.
import { $ } from './elements.js';
import { History, difference } from './history.js';
import { COMPOSED, ManyLines } from './many.js';
import { lastOf } from './split.js';

/** A text of more lines, or of more characters in some lines, stands in the field of many lines, where none is wrapped. */
const WRAPPED = 200, WRAPPED_LENGTH = 40000;

const text = $('text');
const history = new History();
const many = new ManyLines($('many'), edit);
let value = '';
let starts = [0];
let isMany = false;
let changed = () => {};

/** Where the lines begin that follow line feeds of words at a place. */
function startsOf(words, place) {
  const found = [];
  for (let at = words.indexOf('\n'); at >= 0; at = words.indexOf('\n', at + 1)) found.push(place + at + 1);
  return found;
}

/** The element that is shown. */
const shown = () => (isMany ? $('many') : text);

function select(start, stop) {
  if (isMany) many.select(start, stop);
  else text.setSelectionRange(start, stop);
}

const selected = () => (isMany ? many.selected() : [text.selectionStart, text.selectionEnd]);

/** Whether a text is for the field of many lines. One that becomes shorter stays in its field until it is half as long. */
function isForMany(lines, length) {
  const part = isMany ? 2 : 1;
  return lines > WRAPPED / part || (length > WRAPPED_LENGTH / part && lines > 1);
}

/** Takes words in the place of others. Whether the text got the other field, which it doesn't where it `stays`. */
function take(from, to, words, stays = false) {
  value = value.slice(0, from) + words + value.slice(to);
  const [first, last] = [from, to].map((place) => lastOf(starts, (start) => start <= place) + 1);
  const moved = words.length - (to - from);
  const rest = starts.length - last;
  starts = starts.slice(0, first).concat(startsOf(words, from), starts.slice(last));
  for (let i = starts.length - rest; i < starts.length; i++) starts[i] += moved;
  if (stays || isForMany(starts.length, value.length) === isMany) return false;
  const focused = document.activeElement === shown();
  isMany = !isMany;
  $('editor').classList.toggle('many', isMany);
  many.build(isMany ? value : '');
  text.value = isMany ? '' : value;
  if (focused) shown().focus();
  return true;
}

/** Puts words in the place of others, and selects from `start` to `stop`. */
function put(from, to, words, [start, stop]) {
  const was = isMany;
  if (!take(from, to, words)) {
    if (was) many.replace(from, to, words);
    else text.value = value;
  }
  select(start, stop);
  if (isMany) many.reveal(stop);
}

const kindOf = (type) => (/^insert(Text|Composition)/.test(type) ? 'typed' : /^delete(Content|Word)/.test(type) ? 'erased' : '');

/** A change that the user made in the field of many lines. */
function edit(from, to, words, type) {
  const composed = COMPOSED.test(type);
  history.add({ at: from, removed: value.slice(from, to), added: words, selected: composed ? [from, to] : selected(), kind: kindOf(type), when: performance.now() });
  // While an input method composes a word, the field, the caret and what it has put there stay as they are.
  if (composed) {
    take(from, to, words, true);
    many.replace(from, to, words);
  } else {
    put(from, to, words, [from + words.length, from + words.length]);
  }
  changed(type);
}

/** Takes what stands in the textarea. */
function typed({ inputType = '', isComposing = false }) {
  const now = text.value;
  const change = difference(value, now);
  const end = change.at + change.added.length;
  history.add({ ...change, selected: [change.at, change.at + change.removed.length], kind: kindOf(inputType), when: performance.now() });
  if (take(change.at, change.at + change.removed.length, change.added, isComposing)) select(end, end);
  else if (isMany) many.build(value);
  changed(inputType);
}

function undo() {
  const change = history.undone();
  if (!change) return;
  put(change.at, change.at + change.added.length, change.removed, change.selected);
  changed('');
}

function redo() {
  const change = history.redone();
  if (!change) return;
  const end = change.at + change.added.length;
  put(change.at, change.at + change.removed.length, change.added, [end, end]);
  changed('');
}

/** What undoes and what redoes, by keys and by the browser's menu. */
function onHistory(event) {
  // On a keyboard of other letters the key is known by its place.
  const key = /^[a-z]$/i.test(event.key) ? event.key.toLowerCase() : event.code?.slice(3).toLowerCase();
  const held = (event.ctrlKey || event.metaKey) && !event.altKey;
  const back = event.inputType === 'historyUndo' || (held && key === 'z' && !event.shiftKey);
  const forth = event.inputType === 'historyRedo' || (held && ((key === 'z' && event.shiftKey) || (key === 'y' && event.ctrlKey)));
  if (!back && !forth) return;
  event.preventDefault();
  if (back) undo();
  else redo();
}

export const field = {
  get value() {
    return value;
  },
  /** Where the lines begin. */
  get starts() {
    return starts;
  },
  get isMany() {
    return isMany;
  },
  /** What scrolls. */
  get scroller() {
    return shown();
  },
  get caret() {
    return selected()[0];
  },
  select,
  focus: () => shown().focus(),
  /** Puts a text in place of the field's, as one change that can be undone. */
  replace(words) {
    const now = words.replace(/\r\n?/g, '\n');
    if (now === value) return;
    history.add({ at: 0, removed: value, added: now, selected: [0, 0], kind: '', when: performance.now() });
    shown().focus();
    put(0, value.length, now, [0, 0]);
    shown().scrollTop = 0;
  },
  /** The first text is no change that could be undone. */
  begin(words) {
    if (!take(0, value.length, words.replace(/\r\n?/g, '\n')) && !isMany) text.value = value;
  },
  invalid(is) {
    for (const node of [text, $('many')]) node.setAttribute('aria-invalid', String(is));
  },
};

/** `tell` is called with the type of each change that the user makes. */
export function startField(tell) {
  changed = tell;
  text.addEventListener('input', typed);
  for (const name of ['keydown', 'beforeinput']) $('editor').addEventListener(name, onHistory);
}
