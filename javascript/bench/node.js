// The figures of Node: node.js MODULE FILE..
import { readFileSync } from 'node:fs';
import { basename } from 'node:path';
import { load } from '../src/node.js';
import { figure, runsOf } from './measure.js';

// So many runs at least, and so many seconds: the engine compiles once more what it has seen to be called often.
const TIMES = 15;
const SECONDS = 2;
const [module, ...files] = process.argv.slice(2);
const wkt = await load(readFileSync(module));
const workloads = Object.fromEntries(files.map((file) => [basename(file), readFileSync(file, 'utf8')]));
for (const it of runsOf(wkt, workloads)) {
  let least = Infinity;
  for (let i = 0, used = 0; i < TIMES || used < SECONDS; i++) {
    const before = process.cpuUsage();
    it.run();
    const { user, system } = process.cpuUsage(before);
    const took = (user + system) / 1e6;
    used += took;
    least = Math.min(least, took);
  }
  console.log(figure(it, least));
}
