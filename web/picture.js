// The picture, as the page has it: a worker draws it and knows what is where. Here are the pointer, the keys and the words.
import { tellDesk } from './answers.js';
import { $, count, fill, number } from './elements.js';
import { choose, state } from './state.js';

const canvas = $('canvas');
/** Whether the chosen row stands out, since the user chose it in the picture. */
let single = false;
/** Whether the pointer's place is asked for, and where it is since. */
let hovering = false, next;
let told = {};
let foretold = null; // the chosen row, where the worker knows it already
let pointsOfFile = 0;

const ask = (asked) => tellDesk({ picture: asked });

export const fit = () => ask({ fit: true });

const asChosen = (i) => ({ id: state.rows[i]?.id ?? -1, single });

/** What the worker is told with a change: which row will be chosen; -1: that isn't known. */
export function toldOf(i) {
  if (i < 0) return {};
  foretold = asChosen(i);
  return { picture: { chosen: foretold } };
}

/** The chosen row lies on the others. */
export function draw() {
  const chosen = asChosen(state.chosen);
  if (foretold?.id !== chosen.id || foretold.single !== single) ask({ chosen });
  foretold = null;
}

/** Shows some points of a file, x, y, x, y .., of so many; null: no file is open. */
export function showPoints(xy, all) {
  pointsOfFile = all;
  ask({ points: xy && { xy } });
}

function sendColors() {
  const style = getComputedStyle(document.documentElement);
  const color = (name) => style.getPropertyValue(`--${name}`).trim();
  ask({ colors: { shapes: Array.from({ length: 8 }, (_, i) => color(`c${i}`)), bad: color('bad'), grid: color('grid'), axis: color('axis'),
    faint: color('faint'), card: color('card'), ink: color('ink') } });
}

const shapeWords = ({ refused, kind, points }) => `${refused ? 'the part before the refusal: ' : ''}${kind} of ${count(points, 'point')}`;

/** Words for those who don't see the picture. */
function described({ seen, sample, shapes, first }) {
  if (!seen) return 'No picture';
  if (sample !== null) return `Picture of ${count(sample, 'point')} of the file`;
  return shapes > 3 ? `Picture of ${count(shapes, 'geometry', 'geometries')}` : `Picture of ${first.map(shapeWords).join(', ')}`;
}

function emptyWords({ sample, shapes }) {
  if (sample !== null) return 'No points so far';
  if (state.rows.length === 0) return 'The picture appears here';
  return shapes > 0 ? 'There are no points to draw' : 'No picture: no point was read before the refusal';
}

/** What the picture shows, in words beside its heading. */
function drawnWords({ seen, sample, dashed, ended }) {
  if (!seen) return '';
  if (sample !== null) return sample < pointsOfFile ? `${number(sample)} of ${count(pointsOfFile, 'point')}, to scale` : 'points only, to scale';
  return ['to scale, y up', ended && '○ first, □ last vertex', dashed && 'dashed: before a refusal'].filter(Boolean).join('; ');
}

/** Takes what the worker says of what it has drawn. */
export function takeDrawn(drawn) {
  told = drawn;
  fill($('empty'), told.seen ? '' : emptyWords(told));
  for (const id of ['fit', 'in', 'out-zoom']) $(id).disabled = !told.seen;
  canvas.setAttribute('aria-label', described(told));
  // For tests, and no attributes: those would have the page laid out once more.
  Object.assign(canvas, { painted: told.painted, labels: told.labels ?? [] });
  fill($('drawn'), drawnWords(told));
}

const digits = (n) => Number(n.toPrecision(6)).toLocaleString('en', { maximumSignificantDigits: 6 });

/** What is under the pointer, in words: the digits of a vertex, its number, and the vertices and the length of its ring. */
function readoutWords({ id, digits: point, what, ring, rings, vertex, vertices, length, points }) {
  const row = state.rows.length > 1 ? state.rows.find((it) => it.id === id) : null;
  const said = [point];
  if (what) said.push(`${vertex ? `vertex ${number(vertex)} of ` : ''}${count(vertices, 'vertex', 'vertices')}${vertex ? '' : ` in the ${what}`}`);
  if (what) said.push(`${what}${rings > 1 ? ` ${number(ring)} of ${number(rings)}` : ''}: length ${digits(length)}`);
  if (points !== undefined) said.push(count(points, 'point'));
  if (row) said.push(`line ${number(row.line)}`);
  return said.filter(Boolean).join(' · ');
}

/** Takes what lies where the pointer is, or where the keys have gone. */
export function takeReadout(said) {
  hovering = false;
  if (next !== undefined) {
    hover(next);
    return;
  }
  const words = said.id === undefined ? '' : readoutWords(said);
  fill($('readout'), words || said.place || '');
  if (said.spoken) $('vertex').textContent = words;
}

export function takePicked(id) {
  const i = state.rows.findIndex((row) => row.id === id);
  if (i < 0 || state.rows.length < 2) return;
  single = true;
  choose(i);
}

function hover(place) {
  next = hovering ? place : undefined;
  if (hovering) return;
  hovering = true;
  ask({ hover: place });
}

const zoom = (factor) => ask({ zoom: [factor] });
const move = (dx, dy) => ask({ move: [dx, dy] });

const KEYS = {
  ArrowLeft: () => move(-40, 0), ArrowRight: () => move(40, 0), ArrowUp: () => move(0, 40), ArrowDown: () => move(0, -40),
  '+': () => zoom(1.4), '=': () => zoom(1.4), '-': () => zoom(1 / 1.4), 0: fit, '.': () => ask({ step: 1 }), ',': () => ask({ step: -1 }),
};

function placeOf(event) {
  const { left, top } = canvas.getBoundingClientRect();
  return [event.clientX - left, event.clientY - top];
}

function startPointer() {
  let held = null;
  let dragged = false;
  canvas.addEventListener('wheel', (event) => {
    event.preventDefault();
    ask({ zoom: [2 ** (-event.deltaY / 300), ...placeOf(event)] });
  }, { passive: false });
  canvas.addEventListener('pointerdown', (event) => {
    held = { x: event.clientX, y: event.clientY, moved: 0 };
    dragged = false;
  });
  addEventListener('pointerup', () => {
    held = null;
  });
  canvas.addEventListener('pointermove', (event) => {
    if (!held) {
      hover(placeOf(event));
      return;
    }
    if (held.moved === 0) canvas.setPointerCapture(event.pointerId);
    dragged = true;
    move(held.x - event.clientX, event.clientY - held.y);
    held = { x: event.clientX, y: event.clientY, moved: held.moved + 1 };
  });
  canvas.addEventListener('pointerleave', () => hover(null));
  canvas.addEventListener('click', (event) => dragged || ask({ pick: placeOf(event) }));
}

/** The canvas, as the worker takes it. */
export const canvasToDraw = () => canvas.transferControlToOffscreen();

export function startPicture() {
  startPointer();
  canvas.addEventListener('keydown', (event) => {
    const act = KEYS[event.key];
    if (!act || event.altKey || event.ctrlKey || event.metaKey) return;
    act();
    event.preventDefault();
  });
  $('in').addEventListener('click', () => zoom(1.5));
  $('out-zoom').addEventListener('click', () => zoom(1 / 1.5));
  $('fit').addEventListener('click', () => {
    single = false;
    draw();
    fit();
  });
  sendColors();
  new MutationObserver(sendColors).observe(document.documentElement, { attributes: true, attributeFilter: ['data-theme'] });
  new ResizeObserver(() => ask({ size: { w: $('picture').clientWidth, h: $('picture').clientHeight, ratio: devicePixelRatio } })).observe($('picture'));
}

/** No row stands out any more. */
export function forgetSingle() {
  single = false;
}
