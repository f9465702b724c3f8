// A field of many lines. A browser lays out all lines of a textarea at each key. Here they stand in blocks of some lines,
// of which only those in view are laid out. What a key, a paste or a drop would change is done by `edit`; the browser
// itself changes the text only where an input method composes a word.
import { element } from './elements.js';
import { difference } from './history.js';

/** How many lines a block has, and at most; and the height of a line, as page.css has it. */
const LINES = 60, MOST = 120, HEIGHT = 21;
/** The longest line is rounded up to so many characters: each time that it grows all blocks are laid out. */
const STEP = 64;

/** The types of events of an input method that composes a word. */
export const COMPOSED = /Composition/;

/** What is done by a key that says no words. */
const WORDS = { insertLineBreak: '\n', insertParagraph: '\n' };

/** Lines, each of which ends with a line feed, cut into those of a block. */
function cut(text) {
  const parts = [];
  for (let from = 0; from < text.length;) {
    let to = from;
    for (let n = 0; n < LINES && to < text.length; n++) to = text.indexOf('\n', to) + 1;
    parts.push(text.slice(from, to));
    from = to;
  }
  return parts;
}

/** How many lines a text has, and about how wide they are in characters: some are twice as wide as a letter, and a tab is four. */
function sizeOf(text) {
  let [lines, widest, from] = [0, 0, 0];
  for (let to = text.indexOf('\n'); to >= 0; to = text.indexOf('\n', from)) {
    lines++;
    widest = Math.max(widest, to - from);
    from = to + 1;
  }
  // eslint-disable-next-line no-control-regex
  return { lines, widest: widest * (text.includes('\t') ? 4 : /[^\x00-\x7f]/.test(text) ? 2 : 1) };
}

export class ManyLines {
  #root;
  #edit;
  #blocks = []; // node, text, lines, widest
  #wide = 0;
  #near = [];

  /** `edit` takes a change: from, to, the words between, and the kind of it. */
  constructor(root, edit) {
    this.#root = root;
    this.#edit = edit;
    root.contentEditable = 'true'; // where it is plaintext-only, Chromium doesn't say what an event is about
    root.addEventListener('beforeinput', (event) => this.#before(event));
    root.addEventListener('input', (event) => this.#composed(event.isComposing));
    root.addEventListener('compositionend', () => this.#composed(false));
    root.addEventListener('keydown', () => this.#layOutNear());
    for (const name of ['copy', 'cut']) root.addEventListener(name, (event) => this.#copy(event));
  }

  #block(text) {
    // The last line feed is an element: by the arrows no browser gets from one block to another over a character.
    const block = { node: element('div', {}, text.slice(0, -1), element('br')), text, ...sizeOf(text) };
    block.node.style.setProperty('height', `${block.lines * HEIGHT}px`);
    return block;
  }

  /** Takes a text in place of all that is there; '' where nothing is shown. */
  build(text) {
    this.#blocks = text === '' ? [] : cut(`${text}\n`).map((part) => this.#block(part));
    this.#root.replaceChildren(...this.#blocks.map(({ node }) => node));
    this.#widen();
  }

  #widen() {
    const wide = STEP * Math.ceil(this.#blocks.reduce((most, { widest }) => Math.max(most, widest), 0) / STEP + 0.1);
    if (wide === this.#wide) return;
    this.#wide = wide;
    this.#root.style.setProperty('--wide', `${wide}ch`);
  }

  /** The block that has a place, and where in it. */
  #find(place) {
    let [i, at] = [0, place];
    while (i < this.#blocks.length - 1 && at >= this.#blocks[i].text.length) at -= this.#blocks[i++].text.length;
    return [i, at];
  }

  /** Puts words in the place of others. */
  replace(from, to, words) {
    const [i, at] = this.#find(from);
    const [k, end] = this.#find(to);
    const { node, text, lines } = this.#blocks[i];
    const made = text.slice(0, at) + words + this.#blocks[k].text.slice(end);
    const size = sizeOf(made);
    const there = `${node.textContent}\n` === made; // an input method has put it there
    const plain = node.childNodes.length === 2 && node.firstChild.data === text.slice(0, -1);
    if (there || (i === k && size.lines <= MOST && plain)) {
      if (!there) node.firstChild.replaceData(at, to - from, words);
      if (size.lines !== lines) node.style.setProperty('height', `${size.lines * HEIGHT}px`);
      Object.assign(this.#blocks[i], { text: made, ...size });
    } else {
      const blocks = (size.lines <= MOST ? [made] : cut(made)).map((part) => this.#block(part));
      node.before(...blocks.map((block) => block.node));
      for (const block of this.#blocks.splice(i, k - i + 1, ...blocks)) block.node.remove();
    }
    this.#widen();
  }

  /** Where a block begins in the text. */
  #startOf(i) {
    let place = 0;
    for (let k = 0; k < i; k++) place += this.#blocks[k].text.length;
    return place;
  }

  /** The number of the block that has a node; -1: none has. */
  #blockAt(node) {
    return this.#blocks.findIndex((block) => block.node.contains(node));
  }

  /** The place in the text of a place in the document. */
  #placeOf(node, offset) {
    const i = node === this.#root ? -1 : this.#blockAt(node);
    if (i < 0) return this.#startOf(offset);
    const block = this.#blocks[i].node;
    const range = document.createRange();
    range.setStart(block, 0);
    range.setEnd(node, offset);
    const behind = node === block && offset > 0 && block.childNodes[offset - 1].nodeName === 'BR';
    return this.#startOf(i) + range.toString().length + (behind ? 1 : 0);
  }

  /** The places of what is selected, and of what an event is about. */
  #places({ startContainer, startOffset, endContainer, endOffset }) {
    const end = this.#startOf(this.#blocks.length) - 1;
    return [this.#placeOf(startContainer, startOffset), this.#placeOf(endContainer, endOffset)].map((place) => Math.min(place, end));
  }

  selected() {
    const selection = getSelection();
    if (selection.rangeCount === 0 || !this.#root.contains(selection.anchorNode)) return [0, 0];
    return this.#places(selection.getRangeAt(0));
  }

  select(start, stop) {
    const [from, to] = [start, stop].map((place) => this.#find(place)).map(([i, at]) => [this.#blocks[i].node.firstChild, at]);
    // By setBaseAndExtent Firefox keeps the column to which the arrows went before.
    getSelection().collapse(...from);
    if (stop !== start) getSelection().extend(...to);
  }

  /** Has the blocks around the caret laid out, though they may not be in view: else a key passes over them. */
  #layOutNear() {
    const i = this.#blockAt(getSelection().focusNode);
    const near = i < 0 ? [] : this.#blocks.slice(Math.max(0, i - 1), i + 2).map(({ node }) => node);
    for (const node of this.#near) node.classList.toggle('near', near.includes(node));
    for (const node of near) node.classList.add('near');
    this.#near = near;
  }

  /** Scrolls to a place, if it isn't seen. */
  reveal(place) {
    const [i, at] = this.#find(place);
    const range = document.createRange();
    range.setStart(this.#blocks[i].node.firstChild, at);
    const caret = range.getBoundingClientRect();
    const root = this.#root.getBoundingClientRect();
    const { clientWidth, clientHeight } = this.#root;
    if (caret.top < root.top) this.#root.scrollTop += caret.top - root.top - HEIGHT;
    else if (caret.bottom > root.top + clientHeight) this.#root.scrollTop += caret.bottom - root.top - clientHeight + HEIGHT;
    if (caret.left < root.left) this.#root.scrollLeft += caret.left - root.left - clientWidth / 4;
    else if (caret.left > root.left + clientWidth - HEIGHT) this.#root.scrollLeft += caret.left - root.left - (3 * clientWidth) / 4;
  }

  /** Copies what is selected, as it stands in the text. */
  #copy(event) {
    const [from, to] = this.selected();
    if (from === to) return;
    event.clipboardData.setData('text/plain', this.text(from, to));
    event.preventDefault();
    if (event.type === 'cut') this.#edit(from, to, '', 'deleteByCut');
  }

  text(from, to) {
    return this.#blocks.map((block) => block.text).join('').slice(from, to);
  }

  #before(event) {
    const { inputType, data, dataTransfer } = event;
    if (COMPOSED.test(inputType) || event.isComposing) return;
    event.preventDefault();
    if (!/^(insert|delete)/.test(inputType)) return; // as bold
    const words = inputType.startsWith('delete') ? '' : WORDS[inputType] ?? data ?? dataTransfer?.getData('text/plain') ?? '';
    const range = event.getTargetRanges()[0] ?? getSelection().getRangeAt(0);
    const [from, to] = this.#places(range);
    // What has no words, as a picture that is pasted, changes nothing.
    if (words !== '' || (from < to && inputType.startsWith('delete'))) this.#edit(from, to, words.replace(/\r\n?/g, '\n'), inputType);
  }

  /** Takes what an input method has put in the document. What it changed in more than one block is taken when it is done. */
  #composed(going) {
    const i = this.#blockAt(getSelection().anchorNode);
    const { children } = this.#root;
    if (i >= 0 && children.length === this.#blocks.length) {
      this.#took(this.#startOf(i), this.#blocks[i].text, `${children[i].textContent}\n`);
    } else if (!going) {
      const text = [...children].map((node) => node.textContent).join('\n');
      const end = this.#took(0, this.text(0, -1), text);
      this.build(text);
      this.select(end, end);
    }
  }

  #took(start, before, now) {
    if (before === now) return 0;
    const { at, removed, added } = difference(before, now);
    this.#edit(start + at, start + at + removed.length, added, 'insertCompositionText');
    return start + at + added.length;
  }
}
