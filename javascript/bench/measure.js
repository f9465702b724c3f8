// What Node and Chromium measure: calls over the same texts.

const CALLS = ['point ( 1   2.50 )', 'POINT(-117.123456 33.654321)', 'POLYGON((0 0,4 0,2 4,0 0))'];
const MANY = 100000;

/**
 * What is measured: a name, how many bytes or calls a run has, and the run.
 * @param {import('../src/index.js').Wkt} wkt
 * @param {Record<string, string>} workloads lines, by their names
 * @param {((text: string) => unknown) | null} other another reader of texts
 */
export function runsOf(wkt, workloads, other = null) {
  const runs = [];
  for (const [workload, text] of Object.entries(workloads)) {
    const data = new TextEncoder().encode(text);
    const lines = text.split('\n').filter(Boolean);
    const add = (name, call, some = lines) => runs.push({
      name: `${workload} ${name}`,
      bytes: some.reduce((n, line) => n + line.length + 1, 0),
      run() {
        for (const line of some) call(line);
      },
    });
    runs.push({ name: `${workload} lines`, bytes: data.length, run: () => wkt.lines(data) });
    add('canonical', (line) => wkt.canonical(line));
    add('toGeoJSONObject', (line) => wkt.toGeoJSONObject(line));
    add('arrays', (line) => wkt.arrays(line, { places: 15 }), lines.filter((line) => !line.startsWith('GEOMETRYCOLLECTION')));
    if (other) add('the other reader', other);
  }
  for (const text of CALLS) {
    runs.push({
      name: text,
      calls: MANY,
      run() {
        for (let i = 0; i < MANY; i++) wkt.canonical(text);
      },
    });
  }
  return runs;
}

/** A figure in words, of the least seconds of processor time of a run. */
export const figure = ({ name, bytes, calls }, seconds) =>
  bytes ? `${name}: ${(bytes / 1e6 / seconds).toPrecision(3)} MB/s` : `${name}: ${Math.round(seconds / calls * 1e9)} ns`;
