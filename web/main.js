// The page: starts the module, and joins the parts.
import { unpacked } from '../javascript/src/load.js';
import { answer, askedSplit, dialects, places, setDialects, setSplit, startDesk, takeTurned, whenSettled } from './answers.js';
import { answerText, showCanonical, takeTotals } from './canonical.js';
import { goToNextRefusal, goToPlace, rowAtCursor, showMarks, startEditor } from './editor.js';
import { DIALECTS } from './dialects.js';
import { $, button, copy, count, element } from './elements.js';
import { EXAMPLES } from './examples.js';
import { field, startField } from './field.js';
import { begin, closeFile, readFile, rereadFile, startFiles } from './file.js';
import { showGive, startGiving } from './give.js';
import { showOffer } from './offer.js';
import { canvasToDraw, draw, forgetSingle, startPicture, takeDrawn, takePicked, takeReadout, toldOf } from './picture.js';
import { showRows, startRows } from './rows.js';
import { chosenRow, onShow, show, state } from './state.js';
import { say, showVerdict } from './verdict.js';

/** A file up to this size, with so many lines, is put in the field; a text up to this many characters is answered while it is typed. */
const SMALL_FILE = 256 << 10, FEW_LINES = 2000, TYPED = 2 << 20;
/** A text up to this length stands in the address of the page, and one up to that can be linked to. */
const IN_ADDRESS = 4000, LINKED = 50000;
/** How many decimal places a number may have, where nothing is asked for, and at most. */
const PLACES = 18, MOST_PLACES = 36;
/** After so many milliseconds without an answer the page says that it is at work. */
const SLOW = 400;

let atCursor = false; // whether the row at the cursor is shown
let slow = 0;

/** Answers the text, and shows the row at the cursor where that is asked for, else the first that is refused. */
function analyse(here = false) {
  if (field.value.length > TYPED) {
    readFile(new File([field.value], 'The text'));
    return;
  }
  atCursor = here;
  $('verdict').setAttribute('aria-busy', 'true');
  clearTimeout(slow);
  slow = setTimeout(() => state.settled || say('idle', 'Checking', count(state.rows.length, 'text')), SLOW);
  answer(field.value, () => toldOf(here ? rowAtCursor() : -1));
  // The marks are shown before the next frame, where they aren't shown with the answers.
  if (!state.settled) requestAnimationFrame(() => state.settled || showMarks());
  showOffer(field.value, put);
}

/** All is answered: shows it. */
function settled() {
  clearTimeout(slow);
  const refused = state.counted.refused > 0 ? state.rows.findIndex((row) => !row.accepted) : -1;
  state.chosen = refused >= 0 ? refused : Math.min(Math.max(state.chosen, 0), state.rows.length - 1);
  const here = atCursor ? rowAtCursor() : -1;
  if (here >= 0) state.chosen = here;
  show();
  $('verdict').setAttribute('aria-busy', 'false');
}

// ---- Links. What stands behind `#` is never sent.
function link() {
  const said = new URLSearchParams({ wkt: field.value });
  if (places() !== PLACES) said.set('places', String(places()));
  if (dialects() !== '') said.set('dialects', dialects());
  if (askedSplit() !== 'auto') said.set('as', askedSplit());
  return `#${said}`;
}

/** Takes what stands in the address; `set` puts its text in the field. */
function readLink(set) {
  const said = new URLSearchParams(location.hash.slice(1));
  if (!said.has('wkt')) return false;
  set(said.get('wkt'));
  const wanted = said.get('places') ?? '';
  $('places').value = /^(3[0-6]|[12]?[0-9])$/.test(wanted) ? wanted : String(PLACES);
  setDialects(said.get('dialects') ?? '');
  setSplit(['lines', 'one'].includes(said.get('as')) ? said.get('as') : 'auto');
  return true;
}

let addressTimer = 0;

/** The address follows the text, so that a reload keeps it. */
function keepInAddress() {
  clearTimeout(addressTimer);
  addressTimer = setTimeout(() => {
    const kept = field.value !== '' && field.value.length <= IN_ADDRESS;
    if (!kept && location.hash === '') return;
    try {
      history.replaceState(null, '', kept ? link() : location.pathname + location.search);
    } catch {
      // Some browsers allow that no more often than they like.
    }
  }, 400);
}

function changed(here = false) {
  closeFile();
  forgetSingle();
  analyse(here);
  keepInAddress();
}

/** Puts a text in the field, and answers it. */
function put(value) {
  field.replace(value);
  state.chosen = 0;
  changed();
}

// ---- Copying.
function startCopying() {
  $('copy').addEventListener('click', async () => {
    await whenSettled();
    if (chosenRow()?.accepted) copy(answerText().text, $('copy'));
  });
  $('copy-link').addEventListener('click', () => {
    history.replaceState(null, '', link());
    copy(location.href, $('copy-link'));
  });
  $('format').addEventListener('change', showCanonical);
}

function showLinkButton() {
  const { length } = field.value;
  $('copy-link').disabled = length === 0 || length > LINKED;
  $('copy-link').title = length > LINKED ? 'The text is too long for a link' : 'A link to this page with the text in it';
}

// ---- Files.
async function take(files) {
  const [file] = files;
  if (!file) return;
  // Of several one is read as a file, where it is said that the others aren't.
  if (files.length === 1 && file.size <= SMALL_FILE) {
    const current = begin();
    try {
      const words = new TextDecoder('utf-8', { fatal: true, ignoreBOM: true }).decode(await file.arrayBuffer());
      if (current() && words.split('\n', FEW_LINES + 1).length <= FEW_LINES) {
        put(words);
        return;
      }
    } catch {
      // It isn't UTF-8, or can't be read: the worker says so.
    }
    if (!current()) return;
  }
  field.replace('');
  keepInAddress();
  readFile(file, files.length - 1);
}

function startDropping() {
  let over = 0;
  const ofFiles = (event) => event.dataTransfer?.types.includes('Files');
  const shown = () => document.body.classList.toggle('dropping', over > 0);
  addEventListener('dragenter', (event) => {
    if (ofFiles(event)) over++;
    shown();
  });
  addEventListener('dragleave', (event) => {
    if (ofFiles(event)) over = Math.max(0, over - 1);
    shown();
  });
  addEventListener('dragover', (event) => {
    if (ofFiles(event)) event.preventDefault();
  });
  addEventListener('drop', (event) => {
    over = 0;
    shown();
    if (!event.dataTransfer?.files.length) return;
    event.preventDefault();
    take([...event.dataTransfer.files]);
  });
}

// ---- The rest of the controls.
function fillChoices() {
  for (let n = MOST_PLACES; n >= 0; n--) $('places').append(element('option', { value: n, selected: n === PLACES }, n === MOST_PLACES ? `${n} (most)` : String(n)));
  for (const [name, { words, title }] of Object.entries(DIALECTS)) {
    $('dialects').append(element('label', { class: 'field', title }, element('input', { type: 'checkbox', value: name }), words));
  }
}

/** The list of examples: each is a button, so that going through the list changes nothing. */
function startExamples() {
  const list = $('examples');
  for (const [name, example] of Object.entries(EXAMPLES)) {
    $('example-list').append(button(name, {}, () => {
      list.open = false;
      setSplit('auto');
      put(example);
    }));
  }
  addEventListener('pointerdown', (event) => {
    if (!list.contains(event.target)) list.open = false;
  });
  list.addEventListener('keydown', (event) => {
    if (event.key !== 'Escape') return;
    list.open = false;
    list.querySelector('summary').focus();
  });
}

function startControls() {
  startField((type) => changed(/^(insert(?!From)|delete)/.test(type)));
  for (const control of [$('places'), $('dialects'), $('split')]) control.addEventListener('change', () => rereadFile() || changed());
  $('clear').addEventListener('click', () => {
    put('');
    field.focus();
  });
  $('skip').addEventListener('click', (event) => {
    // The address stays: the text stands in it.
    event.preventDefault();
    field.focus();
  });
  $('next').addEventListener('click', goToNextRefusal);
  $('open').addEventListener('click', () => $('file').click());
  $('file').addEventListener('change', () => {
    take([...$('file').files]);
    $('file').value = '';
  });
  $('theme').addEventListener('click', () => {
    const theme = document.documentElement.dataset.theme === 'dark' ? 'light' : 'dark';
    document.documentElement.dataset.theme = theme;
    try {
      localStorage.setItem('wkt-theme', theme);
    } catch {
      // The browser keeps nothing for this page.
    }
  });
}

function startKeys() {
  addEventListener('keydown', (event) => {
    if (!event.altKey || event.ctrlKey || event.metaKey) return;
    if (event.code === 'KeyN' && !$('next').hidden) goToNextRefusal();
    else if (event.code === 'KeyC' && chosenRow()?.accepted) $('copy').click();
    else return;
    event.preventDefault();
  });
  addEventListener('hashchange', () => {
    if (!readLink(field.replace)) return;
    state.chosen = 0;
    closeFile();
    analyse();
  });
}

async function start() {
  fillChoices();
  try {
    const begun = performance.now();
    state.module = await unpacked($('module').textContent.trim());
    $('engine').textContent = `The module was ready in ${Math.round(performance.now() - begun)} ms.`;
  } catch (error) {
    say('bad', 'This browser can’t run the page', `It needs WebAssembly and DecompressionStream: Chrome 92, Firefox 113, Safari 16.4 or later. ${error}`);
    return;
  }
  startDesk(canvasToDraw(), settled, { drawn: takeDrawn, readout: takeReadout, picked: takePicked, turned: takeTurned, totals: takeTotals,
    failed: (words) => say('bad', 'Something went wrong in the page', words) });
  for (const listener of [showVerdict, showCanonical, showRows, showMarks, showLinkButton, showGive, draw]) onShow(listener);
  startEditor();
  startPicture();
  startRows(goToPlace);
  startFiles();
  startCopying();
  startGiving();
  startControls();
  startExamples();
  startKeys();
  startDropping();
  if (!readLink(field.begin)) field.begin(EXAMPLES[Object.keys(EXAMPLES)[0]]);
  analyse();
  document.documentElement.dataset.ready = 'yes';
}

start();
