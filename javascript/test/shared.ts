/// <reference no-default-lib="true" />
// What is returned is in an ArrayBuffer, and not in shared memory, by the types of TypeScript 5.7 and later: what of its
// library is needed stands here.
interface ArrayBuffer {
  readonly byteLength: number;
  resize(): void;
}
interface SharedArrayBuffer {
  readonly byteLength: number;
  grow(): void;
}
type ArrayBufferLike = ArrayBuffer | SharedArrayBuffer;
interface ArrayBufferView {
  readonly buffer: ArrayBufferLike;
}
interface Listed<Buffer extends ArrayBufferLike, Item, Same> {
  readonly buffer: Buffer;
  readonly [at: number]: Item;
  slice(from?: number, to?: number): Same;
}
interface Uint8Array<B extends ArrayBufferLike = ArrayBufferLike> extends Listed<B, number, Uint8Array<ArrayBuffer>> { readonly of: 8 }
interface Uint32Array<B extends ArrayBufferLike = ArrayBufferLike> extends Listed<B, number, Uint32Array<ArrayBuffer>> { readonly of: 32 }
interface Float64Array<B extends ArrayBufferLike = ArrayBufferLike> extends Listed<B, number, Float64Array<ArrayBuffer>> { readonly of: -64 }
interface BigInt64Array<B extends ArrayBufferLike = ArrayBufferLike> extends Listed<B, bigint, BigInt64Array<ArrayBuffer>> { readonly of: 64 }
interface Array<Item> { [at: number]: Item }
interface ReadonlyArray<Item> { readonly [at: number]: Item }
interface Iterable<Item> { next(): Item }
interface PromiseLike<Value> { then(done: (value: Value) => void): void }
interface Promise<Value> extends PromiseLike<Value> {}
interface Boolean {}
interface CallableFunction {}
interface Error {}
declare var Error: { new (words?: string): Error };
interface Function {}
interface IArguments {}
interface NewableFunction {}
interface Number {}
interface Object {}
interface RegExp {}
interface String {}
type ReturnType<F extends (...given: any) => any> = F extends (...given: any) => infer Given ? Given : any;

declare function takes(...buffers: ArrayBuffer[]): void;
declare const wkt: import('wkt-proved').Wkt;
declare const bytes: Uint8Array;
const { numbers, rings, polygons, coordinates } = wkt.arrays(bytes);
takes(wkt.canonicalBytes(bytes).buffer, wkt.lines(bytes).buffer, wkt.columns(null!).statuses.buffer, numbers.buffer, rings.buffer, polygons.buffer, coordinates.buffer);
// @ts-expect-error it may be shared
takes(bytes.buffer);
