// Of what the host has, these are named. Where its types aren't loaded, as in Node without the library `dom`, each is empty, and
// else what it is there.
declare global {
  interface Response {}
  interface TransformStream<I, O> {}
  interface URL {}
  namespace WebAssembly {
    interface Module {}
  }
}

// names.py: types (tests/gate/names.py --write makes this of docs/names.tsv)
/** A kind that has flat arrays. */
export type FlatKind = "Point" | "LineString" | "Polygon" | "MultiPoint" | "MultiLineString" | "MultiPolygon";
export type Kind = FlatKind | "GeometryCollection";
export type Dimension = "XY" | "XYZ" | "XYM" | "XYZM";
/** Why a text has no answer, as include/wkt.h has it. 1 to 14: the text begins with no geometry. */
export declare const STATUS: {
  /** Done */
  readonly OK: 0;
  /** of the refusals, 1 to 14: a number has too many decimals, or is too large */
  readonly BAD_NUMBER: 13;
  /** Refused */
  readonly LAST_REFUSAL: 14;
  /** The text is not UTF-8 */
  readonly NOT_UTF8: 20;
  /** A buffer has no room */
  readonly TOO_SMALL: 21;
  /** Out of memory */
  readonly NO_MEMORY: 22;
  /** There are no numbers of so many places */
  readonly NO_PLACES: 23;
  /** A collection has no flat arrays */
  readonly COLLECTION: 24;
  /** A number has more units than 64 bits hold */
  readonly TOO_LARGE: 25;
  /** The arrays are of no geometry */
  readonly NOT_ARRAYS: 26;
  /** The offsets, the bits or the sizes are of no column */
  readonly NOT_COLUMN: 27;
  /** The row is null */
  readonly NULL: 28;
  /** The text is not refused */
  readonly ACCEPTED: 29;
  /** More than white space follows the geometry */
  readonly NOT_WHOLE: 30;
  /** A pointer is NULL */
  readonly NULL_POINTER: 31;
  /** The processor is not supported */
  readonly NOT_SUPPORTED: 32;
  /** A size is more than PTRDIFF_MAX */
  readonly TOO_LONG: 33;
};
// names.py: end
/** The kinds, at their numbers. */
export declare const KINDS: readonly Kind[];
/** The dimensions, at their numbers. */
export declare const DIMENSIONS: readonly Dimension[];

// What a call returns is in an ArrayBuffer, as what `slice` returns: TypeScript 5.7 and later tell it from shared memory.
type Bytes = ReturnType<Uint8Array['slice']>;
type Offsets = ReturnType<Uint32Array['slice']>;

/** A text: a string, or bytes of UTF-8. */
export type Text = string | Uint8Array;

export interface Places {
  /**
   * How many digits may stand after the point, 0 to 36. A text with more is refused: nothing is rounded. More leave less room
   * before the point: with 36 no number beyond 170.14 is read.
   */
  places?: number;
}
/** What a text may have beyond the grammar. */
export interface Dialects {
  /**
   * What other tools write, by name: `srid`, `untagged`, `exponents`, `nan`, or several as in `ewkt,exponents`, where `ewkt` is
   * `srid,untagged` (docs/DIALECTS.md). A text that is read without them has the same answer with them. The SRID is no part of
   * it: `srid` returns that.
   */
  dialect?: string;
}
export interface Asked extends Places, Dialects {
  /** Whether a text with more than white space behind its geometry is refused; true if left out. */
  whole?: boolean;
}

/** Where and why a text is refused. */
export interface Explanation {
  /** The number of the reason, in STATUS. */
  readonly status: number;
  /** Its words, which are those of the Rust crate. */
  readonly message: string;
  /** From `start` to before `stop` is what is refused: units of a string, from 0 on, and bytes of bytes. */
  readonly start: number;
  readonly stop: number;
  /** What could come next. */
  readonly expected: string;
  /** Why the text is refused, in a user's words; '' where that isn't known. */
  readonly hint: string;
  /** The same as one stable word, to group by. docs/FILES.md lists them. */
  readonly code: string;
  /** The line, from 1 on. */
  readonly line: number;
  /** The character of that line, from 1 on. */
  readonly column: number;
  /** The place, and why the text is refused there, in one line. */
  readonly cause: string;
  /**
   * The line of the text, or what of it is around the place, with a mark below the place. As in `cause`, what isn't
   * printable stands in it as `\x1b` or `\u{202e}`.
   */
  readonly caret: string;
}

/** A text, or arrays, without an answer. Its message is the cause, where a place is known, and else the words. */
export declare class WktError extends Error {
  constructor(status: number, place?: Explanation | null, words?: string);
  /** The number of the reason, in STATUS; of `infer` also 1 to 3. */
  readonly status: number;
  /** The words of the status alone. */
  readonly words: string;
  readonly place: Explanation | null;
  /** The three of them, since structured clone keeps nothing else of an error. */
  readonly cause: { readonly status: number; readonly words: string; readonly place: Explanation | null };
  /** The error that a worker posted, as it came, or as `{ ...error }`. @throws {TypeError} it was none of these */
  static from(posted: unknown): WktError;
  /** As of its place; '' where none is known. */
  get hint(): string;
  get caret(): string;
}

/** What GeoJSON has no form for, or what is no geometry of GeoJSON. */
export declare class GeoJSONError extends Error {}

/** A geometry that is no collection, as flat arrays: those of `wkt_arrays` in include/wkt.h. */
export interface GivenArrays {
  readonly kind: FlatKind;
  /** XY if left out. */
  readonly dimension?: Dimension;
  /** The numbers, coordinate after coordinate, in units of ten to the minus `places`. */
  readonly numbers: readonly bigint[] | BigInt64Array;
  /** Where each ring begins among the coordinates, and the end of the last. */
  readonly rings: readonly number[] | Uint32Array;
  /** Where each polygon begins among the rings, and the end of the last. */
  readonly polygons: readonly number[] | Uint32Array;
  /** How many digits after the point a unit stands for; 6 if left out. */
  readonly places?: number;
}
export interface Arrays extends GivenArrays {
  readonly dimension: Dimension;
  readonly numbers: ReturnType<BigInt64Array['slice']>;
  readonly rings: Offsets;
  readonly polygons: Offsets;
  readonly places: number;
  /** Where the geometry ends in its text. */
  readonly end: number;
  /** The numbers as doubles, each the nearest. */
  get coordinates(): ReturnType<Float64Array['slice']>;
}

/** Where a geometry begins, among the events of one. */
export interface Begun {
  readonly kind: Kind;
  readonly dimension: Dimension;
}
/** A geometry of any kind, in the order of its text: what `wkt_read_events` in include/wkt.h gives. */
export interface Events {
  /**
   * `Begun` where a geometry begins, and null where it ends. Between them is for each point (of none or one coordinate), line
   * string, line and ring how many coordinates it has, which are the next of the numbers. The polygons of a MultiPolygon and
   * the members of a collection begin and end in turn.
   */
  readonly events: (Begun | number | null)[];
  /** All numbers, coordinate after coordinate, in units of ten to the minus `places`. A coordinate has 2, 3, 3 or 4. */
  readonly numbers: bigint[];
  readonly places: number;
}

export interface GeoJSONOptions extends Asked {
  /** What becomes of m, for which GeoJSON has no form. 'keep' makes it the last number of a position. */
  m?: 'refuse' | 'drop' | 'keep';
}
export type GeoJSONPosition = number[];
export type GeoJSONGeometry =
  | { type: 'Point'; coordinates: GeoJSONPosition }
  | { type: 'LineString' | 'MultiPoint'; coordinates: GeoJSONPosition[] }
  | { type: 'Polygon' | 'MultiLineString'; coordinates: GeoJSONPosition[][] }
  | { type: 'MultiPolygon'; coordinates: GeoJSONPosition[][][] }
  | { type: 'GeometryCollection'; geometries: GeoJSONGeometry[] };

/**
 * The proved module with its memory. Calls are synchronous; `places` is 18 if left out, and 6 for arrays. Options that a call
 * doesn't have are a TypeError.
 */
export interface Wkt {
  /** The one text of the geometry that a text names. @throws {WktError} the text is refused */
  canonical(text: Text, asked?: Asked): string;
  /** The same as bytes of ASCII, which are the caller's; with `feed`, a line feed stands behind it. */
  canonicalBytes(text: Text, asked?: Asked & { feed?: boolean }): Bytes;
  /** The canonical text of the geometry that a text begins with, and where that ends in the text. Anything may follow. */
  front(text: Text, asked?: Places & Dialects): { canonical: string; end: number };
  /** Whether a text is read: whether `canonical` answers it. */
  reads(text: Text, asked?: Asked): boolean;
  /** Whether two texts name one geometry: whether their canonical texts are equal. @throws {WktError} one is refused */
  same(one: Text, other: Text, asked?: Asked): boolean;
  /** Where and why a text is refused; null where it is read. @throws {WktError} the text isn't UTF-8 */
  explain(text: Text, asked?: Asked): Explanation | null;
  /** The kind and the dimension that the header of a text names; the rest isn't read. @throws {WktError} there is none */
  infer(text: Text): { kind: Kind; dimension: Dimension };
  /**
   * A geometry that is no collection as flat arrays: those of the value as it is read. For the same arrays of the same key,
   * pass the canonical text.
   * @throws {WktError} it is one, is refused, or has a number whose units 64 bits don't hold: beyond 9.22 with 18 places */
  arrays(text: Text, asked?: Asked): Arrays;
  /** The canonical text of such arrays. @throws {WktError} they are of no geometry */
  fromArrays(arrays: GivenArrays): string;
  /**
   * A geometry of any kind, collections too, with each number exact: the value as it is read, and with a dialect that of its
   * canonical text. Each text that `canonical` answers has it.
   * @throws {WktError} the text is refused */
  readEvents(text: Text, asked?: Asked): Events;
  /** The SRID in front of a text, as the dialect `srid` leaves it out; null where it has none. The rest isn't read. */
  srid(text: Text): number | null;
  /** The canonical texts of many texts, with the status of each: no row throws. A row of null is null. */
  columns(texts: Iterable<Text | null | undefined>, asked?: Asked): { texts: (string | null)[]; statuses: Bytes };
  /** For each line the canonical text of the geometry that it begins with, or `refused`, and a line feed. */
  lines(input: string, asked?: Places): string;
  lines(input: Uint8Array, asked?: Places): Bytes;
  /** The same of a stream of bytes: it holds a chunk and the longest line. */
  lineStream(asked?: Places): TransformStream<Uint8Array, Bytes>;
  /** GeoJSON as text. Each number stands in it as in the canonical text. @throws {GeoJSONError} it has no form */
  toGeoJSON(text: Text, asked?: GeoJSONOptions): string;
  /** GeoJSON as an object, whose numbers are the nearest doubles. */
  toGeoJSONObject(text: Text, asked?: GeoJSONOptions): GeoJSONGeometry;
  /**
   * The canonical text of a geometry of GeoJSON. Of a text each number is taken as written; of an object, as
   * JavaScript prints it. @throws {GeoJSONError} it is none. @throws {SyntaxError} it is no JSON
   */
  fromGeoJSON(geometry: string | GeoJSONGeometry, asked?: Places): string;
  /** How many bytes of memory the module has. It shrinks by `release` and behind a long text that is refused, and else never. */
  readonly memory: number;
  /** Begins with a new memory, as small as it can be. */
  release(): void;
}

type Source = WebAssembly.Module | ArrayBuffer | ArrayBufferView | Response | URL | string;
/**
 * Loads the module. Without a source it is the package's wkt.wasm: read from its file in Node, fetched and compiled as it
 * comes in a browser; it is compiled once. A string is an address, or in Node a path. Each call gives an instance with a
 * memory of its own.
 */
export declare function load(source?: Source | PromiseLike<Source>): Promise<Wkt>;

/**
 * A number of units of ten to the minus `places` as canonical text has it. @throws {TypeError} the units are no bigint, or
 * places no whole number. @throws {RangeError} places is less than 0
 */
export declare function decimal(units: bigint, places: number): string;
