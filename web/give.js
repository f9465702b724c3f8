// What is given out of all lines: their canonical texts, GeoJSON, or a table of the refusals; copied, or saved.
import { lineOf, whenSettled } from './answers.js';
import { sentenceIn } from './block.js';
import { $, copied, count, fill, number } from './elements.js';
import { started, state } from './state.js';
import { tableOf } from './features.js';

/** A longer text isn't copied. */
const COPIED = 16 << 20;
const NAMES = { wkt: 'canonical.wkt', geojson: 'geojson', csv: 'refusals.csv' };

/** What a file has, once it is read: lines, numbers, whys, refused, name. */
let file = null;
let worker = null;

/** `null`: no file is open. */
export function giveOf(read) {
  file = read;
  showGive();
}

/** The lines that are there, as `give` of the worker takes them. */
function source() {
  if (file) return { ...file, lines: file.lines() };
  const { rows } = state;
  const whys = rows.filter((row) => !row.accepted).map((row) => {
    const { text, cause, words } = row;
    if (!row.place) return { line: row.line, column: 1, expected: '', cause, hint: words, message: words, caret: text };
    return { ...row.place, cause, message: sentenceIn(row.place), line: lineOf(row) };
  });
  return { name: 'texts', lines: new Blob([rows.map((row) => `${row.accepted ? row.canonical : 'refused'}\n`).join('')]), numbers: rows.map((row) => row.line), whys, refused: whys.length };
}

const chosen = (name) => $(`give-${name}`).value;

export function showGive() {
  $('give-card').hidden = file ? file.lines === null : state.file || state.rows.length < 2 || !state.settled;
  const form = chosen('form');
  $('give-refused').parentElement.hidden = form === 'csv';
  for (const name of ['rings', 'winding', 'm']) $(`give-${name}`).parentElement.hidden = form !== 'geojson';
  fill($('given'));
}

/** Makes it, in a worker: the blob, and what was left out of it. */
function made(from) {
  const form = chosen('form');
  if (form === 'csv') return Promise.resolve({ blob: new Blob([tableOf(from.whys)], { type: 'text/csv' }), left: [] });
  worker?.terminate();
  worker = started('give', { lines: from.lines, numbers: from.numbers, form, refused: chosen('refused'), rings: chosen('rings'), winding: chosen('winding'), m: chosen('m') });
  return new Promise((done, fail) => {
    worker.onmessage = ({ data }) => {
      if (data.failed) fail(new Error(data.failed));
      else if (data.blob) done(data);
      else fill($('giving'), `${Math.round((100 * data.done) / Math.max(1, data.size))} %`);
    };
    worker.onerror = (event) => fail(new Error(event.message));
  });
}

/** What was given, in words. */
function words({ left }, from, how) {
  const said = [how];
  const form = chosen('form');
  if (form === 'csv') said.push(from.whys.length < from.refused ? `the first ${number(from.whys.length)} of ${count(from.refused, 'refusal')}` : count(from.refused, 'refusal'));
  else if (from.refused > 0) said.push(`${count(from.refused, 'refused line')} ${chosen('refused') === 'keep' ? 'kept' : 'left out'}`);
  if (left.length > 0) {
    const first = left.slice(0, 3).map(({ line, why }) => `line ${number(line)}: ${why}`).join('; ');
    said.push(`${count(left.length, 'line')} without GeoJSON: ${first}${left.length > 3 ? '; …' : ''}`);
  }
  return `${said.join('. ')}.`;
}

async function give(how) {
  for (const id of ['give-copy', 'give-save']) $(id).disabled = true;
  try {
    await whenSettled();
    const from = source();
    const done = await made(from);
    $('given').textContent = words(done, from, await how(done.blob, from.name));
  } catch (error) {
    $('given').textContent = error.message;
  }
  fill($('giving'));
  for (const id of ['give-copy', 'give-save']) $(id).disabled = false;
}

async function save(blob, name) {
  const link = document.createElement('a');
  link.href = URL.createObjectURL(blob);
  link.download = `${name}.${NAMES[chosen('form')]}`;
  link.click();
  setTimeout(() => URL.revokeObjectURL(link.href), 60000);
  return 'Saved';
}

async function copy(blob) {
  if (blob.size > COPIED) return `Not copied: more than ${COPIED >> 20} MB. Save it`;
  return (await copied(await blob.text())) ? 'Copied' : 'Not copied';
}

export function startGiving() {
  for (const name of ['form', 'refused', 'rings', 'winding', 'm']) $(`give-${name}`).addEventListener('change', showGive);
  $('give-copy').addEventListener('click', () => give(copy));
  $('give-save').addEventListener('click', () => give(save));
}
