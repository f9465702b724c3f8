// What the page shows, who shows it, and the workers, whose scripts stand in the page.
import { $ } from './elements.js';

export const state = {
  /** The module, for workers. */
  module: null,
  /** The texts in the field, in their order: id, text, offset, line, and what was answered. */
  rows: [],
  /** Whether each of them is answered. */
  settled: true,
  /** What was counted when they were: how many are refused, and by which causes, how many repeat another, and whether one has many lines. */
  counted: { refused: 0, repeats: 0, spread: false, causes: [] },
  /** Which of them is looked at; -1: none. */
  chosen: -1,
  /** Whether a file is open, and not the field's text. */
  file: false,
};

const listeners = [];

/** Calls a function each time that something is to be shown. */
export const onShow = (listener) => listeners.push(listener);

export function show() {
  for (const listener of listeners) listener();
}

export const chosenRow = () => state.rows[state.chosen];

export function choose(i) {
  state.chosen = i;
  show();
}

/** Starts a worker in a role, with what its first message has beside the module. */
export function started(role, asked = {}, moved = []) {
  const address = URL.createObjectURL(new Blob([$('core').textContent, '\n', $('worker').textContent], { type: 'text/javascript' }));
  const worker = new Worker(address);
  URL.revokeObjectURL(address);
  worker.postMessage({ role, module: state.module, ...asked }, moved);
  return worker;
}
