// A worker has one of four roles, by its first message: it answers the field's texts and draws them, reads a file, helps
// another to read it, or makes what is saved.
import { load } from '../javascript/src/index.js';
import { Blocks } from './block.js';
import { Desk } from './desk.js';
import { formed } from './features.js';
import { Painter } from './painter.js';
import { Reading, Unreadable, answered } from './reading.js';
import { notReadWords, turned } from './takein.js';

/** How much text is made before it becomes a part of what is saved. */
const PART = 1 << 20;

const post = (message, moved = []) => postMessage(message, moved);

function wordsOf(error) {
  return error instanceof Unreadable ? error.message : notReadWords(error);
}

async function desk({ module, canvas }) {
  const wkt = await load(module);
  let painter = null;
  const ready = new Desk(wkt, post, () => {
    painter.fit();
    painter.draw();
  });
  painter = new Painter(ready, post, canvas);
  return (asked) => {
    if (asked.change) ready.change(asked.change);
    if (asked.picture) painter.take(asked.picture);
    if (asked.turn) turn(wkt, asked.turn);
  };
}

function turn(wkt, { text, form, places, number }) {
  try {
    post({ turned: { number, ...turned(text, form, wkt, places) } });
  } catch (error) {
    post({ turned: { number, failed: wordsOf(error) } });
  }
}

async function file(asked) {
  const reading = new Reading(await load(asked.module), asked, post);
  reading.all().catch((error) => post({ failed: wordsOf(error) }));
  return ({ stop }) => {
    if (stop) reading.stopping = true;
  };
}

async function helper({ module, port, reading }) {
  const wkt = await load(module);
  let blocks = null;
  port.onmessage = ({ data }) => {
    try {
      if (data.seeds) {
        blocks = new Blocks(wkt, { reading, seeds: data.seeds });
        return;
      }
      const found = answered(blocks, data);
      port.postMessage(found, data.bytes ? [found.answers.buffer, found.words.buffer] : []);
    } catch (error) {
      port.postMessage({ failed: wordsOf(error) });
    }
  };
  return () => {};
}

/** The lines of a text in a blob, one after the other. */
async function* linesOf(blob) {
  let begun = '';
  const decoder = new TextDecoder();
  for (let at = 0; at < blob.size; at += 4 * PART) {
    const lines = (begun + decoder.decode(await blob.slice(at, at + 4 * PART).arrayBuffer(), { stream: true })).split('\n');
    begun = lines.pop();
    yield lines;
  }
  if (begun !== '') yield [begun];
}

/** Makes what is saved, and says how far it is. */
async function give({ lines, numbers, ...asked }) {
  const parts = [];
  let [done, left, text, n] = [0, [], '', 0];
  const all = [];
  for await (const some of linesOf(lines)) {
    for (const line of some) all.push(line);
    done += some.reduce((sum, line) => sum + line.length + 1, 0);
    post({ done: done / 2, size: lines.size });
  }
  const pieces = formed(all, { ...asked, numberOf: (i) => numbers?.[i - 1] ?? i });
  for (;;) {
    const { value, done: over } = pieces.next();
    if (over) {
      left = value;
      break;
    }
    text += value;
    if (text.length < PART) continue;
    parts.push(new Blob([text]));
    n += text.length;
    post({ done: lines.size / 2 + Math.min(n, lines.size) / 2, size: lines.size });
    text = '';
  }
  parts.push(text);
  post({ blob: new Blob(parts, { type: asked.form === 'geojson' ? 'application/geo+json' : 'text/plain' }), left });
  return () => {};
}

const ROLES = { desk, file, helper, give };
let taking = null;

onmessage = async ({ data }) => {
  if (data.role) taking = ROLES[data.role](data);
  try {
    const take = await taking;
    if (!data.role) take(data);
  } catch (error) {
    post({ failed: wordsOf(error) });
  }
};
