// Where the module comes from, and what every entry of the package exports beside `load`.
import { printable } from './printable.js';
import { Wkt } from './wkt.js';

export { decimal } from './decimals.js';
export { GeoJSONError, WktError } from './errors.js';
export { DIMENSIONS, KINDS, STATUS } from './names.js';

/** Compiles what is fetched, as it comes where its server says that it is a module. */
async function compiledResponse(response) {
  if (!response.ok) throw new Error(`wkt.wasm: ${response.status} ${printable(response.statusText)}`);
  const type = response.headers.get('content-type') ?? '';
  if (WebAssembly.compileStreaming && type.startsWith('application/wasm')) return WebAssembly.compileStreaming(response);
  return WebAssembly.compile(await response.arrayBuffer());
}

/** Compiles what stands at an address. */
export const fetched = async (address) => compiledResponse(await fetch(address));

/** Compiles a module that is packed as base64 of its gzip. */
export async function unpacked(packed) {
  const bytes = Uint8Array.from(atob(packed), (c) => c.charCodeAt(0));
  const stream = new Blob([bytes]).stream().pipeThrough(new DecompressionStream('gzip'));
  return WebAssembly.compile(await new Response(stream).arrayBuffer());
}

/** Whether a value is of such a class of the host: also that of another realm. */
const isA = (value, name) => Object.prototype.toString.call(value) === `[object ${name}]`;

async function compiled(source, read) {
  if (isA(source, 'WebAssembly.Module')) return source;
  if (isA(source, 'ArrayBuffer') || ArrayBuffer.isView(source)) return WebAssembly.compile(source);
  if (isA(source, 'Response')) return compiledResponse(source);
  if (typeof source !== 'string' && !isA(source, 'URL')) throw new TypeError('a module is one, its bytes, its address or a Response');
  return read(source);
}

/** A `load` whose own module is what `packaged` compiles, and which reads addresses by `read`. */
export function loader(packaged, read = fetched) {
  let ours;
  return async (source) => {
    if (source !== undefined) return new Wkt(await compiled(await source, read));
    // Compiled once, and again after an error.
    ours ??= packaged().catch((error) => {
      ours = undefined;
      throw error;
    });
    return new Wkt(await ours);
  };
}
