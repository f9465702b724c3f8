// Elements of the page, words of numbers, and copying.
import { printable } from '../javascript/src/printable.js';

export { printable };

export const $ = (id) => document.getElementById(id);

/** An element with attributes and children. An attribute of null or false is left out. */
export function element(tag, attributes = {}, ...children) {
  const node = document.createElement(tag);
  for (const [name, value] of Object.entries(attributes)) {
    if (value !== null && value !== undefined && value !== false) node.setAttribute(name, value === true ? '' : value);
  }
  node.append(...children.filter((child) => child !== null && child !== undefined));
  return node;
}

const sameAttributes = (old, made) =>
  old.attributes.length === made.attributes.length && [...made.attributes].every(({ name, value }) => old.getAttribute(name) === value);

/** Gives a node what another has, if only words differ: an element in its place would have more laid out. Whether it could. */
function takes(old, made) {
  if (old.isEqualNode(made)) return true;
  if (old.nodeName !== made.nodeName) return false;
  if (old.data !== undefined) old.data = made.data;
  else if (sameAttributes(old, made)) fill(old, ...made.childNodes);
  else return false;
  return true;
}

/** Makes some nodes and words all that a node has. What is there already stays, so that the page isn't laid out anew. */
export function fill(node, ...children) {
  const made = document.createDocumentFragment();
  made.append(...children.filter((child) => child !== ''));
  let old = node.firstChild;
  for (const it of [...made.childNodes]) {
    const next = old?.nextSibling;
    if (!old) node.append(it);
    else if (!takes(old, it)) old.replaceWith(it);
    old = next;
  }
  for (let next = old; next; next = old) {
    old = next.nextSibling;
    next.remove();
  }
}

const kept = new WeakMap();

/** Gives a node the children that are made for some keys. One that was made for the same key before stays. */
export function fillByKeys(node, made) {
  const before = kept.get(node) ?? new Map();
  const now = new Map(made);
  const gone = new Set([...before].filter(([key]) => !now.has(key)).map(([, child]) => child));
  let next = node.firstChild;
  for (const [key, make] of now) {
    let child = before.get(key) ?? make();
    if (gone.has(next) && !before.has(key) && takes(next, child)) {
      gone.delete(next);
      child = next;
    }
    while (gone.has(next)) next = next.nextSibling;
    if (child === next) next = next.nextSibling;
    else node.insertBefore(child, next);
    now.set(key, child);
  }
  for (const child of gone) child.remove();
  kept.set(node, now);
}

/** A button with words on it. */
export function button(words, attributes, click) {
  const node = element('button', { class: 'button', type: 'button', ...attributes }, words);
  node.addEventListener('click', click);
  return node;
}

/** Gives an element one of the eight colours. The page's policy allows no style attribute, but this. */
export function colored(node, i) {
  node.style.setProperty('--c', `var(--c${i % 8})`);
  return node;
}

const format = new Intl.NumberFormat('en');

export const number = (n) => format.format(n);

/** `1 line`, `2 lines`. */
export const count = (n, one, many = `${one}s`) => `${number(n)} ${n === 1 ? one : many}`;

/** Words in which code stands between back quotes, as nodes. */
export const withCode = (words) => words.split('`').map((part, i) => (i % 2 === 1 ? element('code', {}, part) : part));

/** The same as plain text. */
export const withoutCode = (words) => words.replaceAll('`', '');

/** `a`, `a and b`, `a, b and c`. */
export const listed = (parts) => (parts.length > 1 ? `${parts.slice(0, -1).join(', ')} and ${parts[parts.length - 1]}` : parts.join(''));

/** Words of a stranger, as they are shown, and not too long for a line. */
export function short(words, most) {
  const shown = printable(words.slice(0, most + 1));
  return shown.length > most ? `${shown.slice(0, most - 1)}…` : shown;
}

/** The first word of a text, between white space of the grammar: other spaces are no white space. */
export const wordIn = (text) => short(text.split(/[ \n\r\t]+/).find(Boolean) ?? '', 40);

/** Puts words on the clipboard. Whether that was allowed. */
export async function copied(words) {
  try {
    await navigator.clipboard.writeText(words);
    return true;
  } catch {
    const area = element('textarea', { class: 'quiet' });
    area.value = words;
    document.body.append(area);
    area.select();
    const done = document.execCommand('copy');
    area.remove();
    return done;
  }
}

/** Copies, and says so on the button. */
export async function copy(words, button) {
  // A second click comes while the button still says Copied.
  const before = button.dataset.words ??= button.textContent;
  const done = await copied(words);
  button.focus();
  button.textContent = done ? 'Copied' : 'Not copied';
  setTimeout(() => {
    button.textContent = before;
  }, 1200);
}
