/// <reference types="node" />

import type { Transform } from 'node:stream';

/** The version of the library that is linked in, such as "1.1.0". */
export const version: string;

/**
 * Which of several overlapping occurrences is the match:
 *
 * - `standard`: the one that ends first; of those the one that starts first, then the lower number
 * - `leftmost-first`: the one that starts first; of those the lower number, as in a regular expression
 * - `leftmost-longest`: the one that starts first; of those the longest
 */
export type Kind = 'standard' | 'leftmost-first' | 'leftmost-longest';

/**
 * A match of the pattern of this number, from `start` up to and without `end`. Places are counted in UTF-16 units where a string was
 * searched, as those of `String.prototype.slice`, and else in bytes.
 */
export interface Match {
  pattern: number;
  start: number;
  end: number;
}

/** How an automaton is built. All but the first five change time and memory, and no result. */
export interface Settings {
  /** `'standard'`, if it isn't given. Overlapping matches, whole words and masks need it. */
  kind?: Kind;
  /** Which searches it is for: `'unanchored'`, if it isn't given. */
  startKind?: 'unanchored' | 'anchored' | 'both';
  /** ASCII letters match in either case. */
  fold?: boolean;
  /** Pairs of bytes, or of ASCII characters, that match each other. Not with `fold`. */
  pairs?: Iterable<Iterable<number | string>>;
  /** What searches: `'auto'`, if it isn't given. Take `'contiguous'` for patterns of a stranger's choice. */
  engine?: 'auto' | 'noncontiguous' | 'contiguous' | 'dfa';
  /** Whether searches skip by a prefilter, where one serves: true, if it isn't given. */
  prefilter?: boolean;
  /** Whether bytes that lead alike are one class: true, if it isn't given. */
  byteClasses?: boolean;
  /** To which depth the states of an NFA keep a row. */
  denseDepth?: number;
  /** How many bytes of memory the rows of a contiguous NFA may take. */
  rowMemory?: number;
}

/** Which matches a replacement takes. No call takes another option than those of its type: one that it doesn't have is a TypeError. */
export interface Words {
  /** Whole words alone: occurrences with no letter, digit, `_` or unit beyond ASCII beside them. It needs the standard kind. */
  words?: boolean;
  /** The kind by which whole words are taken one after another: `'standard'`, if it isn't given. Only with `words`. */
  kind?: Kind;
}

/** Which matches a stream takes. */
export interface Pieces extends Words {
  /** All whole words, in the order of end, start and number. Only with `words`. */
  overlapping?: boolean;
}

/** Which matches a search takes, and where. */
export interface Search extends Words {
  /** All occurrences, in the order of end, start and number; with `words` all whole words. It needs the standard kind. */
  overlapping?: boolean;
  /** Where the search begins, and where it ends. Not with `words`. */
  start?: number;
  end?: number;
  /** Each match begins where the search does, or where the match before it ended. The automaton is built for it by `startKind`. */
  anchored?: boolean;
  /** The match is that of the standard kind, whatever the automaton's. */
  earliest?: boolean;
}

/** A text of the patterns' type. Bytes are those of a Uint8Array, which a Buffer is. */
export type TextOf<P> = P extends string ? string : Uint8Array;

/** What a text is, once it is replaced or masked. */
export type ChangedOf<P> = P extends string ? string : Buffer;

/**
 * A replacement for each pattern: an array in their order, a Map or an object by pattern (for strings alone), or one for all. One that
 * `Automaton.replacements` has read serves again and again without being read.
 */
export type TextPerPattern<P> =
  | ReadonlyArray<TextOf<P>>
  | (P extends string ? ReadonlyMap<string, string> | Readonly<Record<string, string>> : never)
  | TextOf<P>
  | Replacements<P>;

/** Replacements that were read once. */
export interface Replacements<P> {
  readonly list: ReadonlyArray<TextOf<P>>;
  readonly isText: boolean;
}

/** A search of a text that is pushed piece by piece. Its matches are those of the whole text, wherever it is cut. */
export interface Stream<P> {
  /** Takes the next piece, and returns the matches that are decided now. A surrogate pair may be cut. */
  push(piece: TextOf<P>): Match[];
  /** Ends the text, and returns the matches that are left. */
  finish(): Match[];
  /** The place up to which all is decided: no match that is still to come begins before it; of all whole words, none ends before it. */
  readonly cut: number;
}

/**
 * Patterns that are searched for together, in time that doesn't depend on how many there are. They are numbered from 0. Patterns of
 * strings search strings, and patterns of bytes search Uint8Arrays; a text of another type is a TypeError. An empty pattern occurs at
 * every place.
 *
 * An automaton never changes. It belongs to its thread: a worker builds its own.
 *
 * Errors have a `code`, such as `DADO_NOT_STANDARD`: a TypeError for an argument of a wrong type, a RangeError for one of a wrong value
 * or for patterns that pass a limit, and an Error for a search that the automaton wasn't built for, or where there is no memory.
 */
export class Automaton<P extends string | Uint8Array = string> {
  /** Builds an automaton. Time and memory are in proportion to the patterns' bytes. Patterns of bytes are copied. */
  constructor(patterns: Iterable<P>, settings?: Settings);

  readonly patterns: ReadonlyArray<P>;
  readonly kind: Kind;
  readonly startKind: 'unanchored' | 'anchored' | 'both';
  readonly fold: boolean;
  readonly engine: 'noncontiguous' | 'contiguous' | 'dfa';
  /** About how many bytes the automaton takes, without the patterns. */
  readonly memory: number;

  /** The first match, or null. */
  find(text: TextOf<P>, options?: Search): Match | null;
  /** Whether there is a match. */
  isMatch(text: TextOf<P>, options?: Search): boolean;
  /** All matches, one after another. */
  findAll(text: TextOf<P>, options?: Search): Match[];
  /** The same in a row: pattern, start and end of each. It is a Float64Array where a text has more than 2^32 - 1 bytes. */
  findAllFlat(text: TextOf<P>, options?: Search): Uint32Array | Float64Array;
  /** The same one at a time: a long text is searched as far as they are taken. Bytes must not change meanwhile. */
  matches(text: TextOf<P>, options?: Search): IterableIterator<Match>;
  /** All occurrences, overlapping ones too: `findAll` with `overlapping`. */
  overlapping(text: TextOf<P>, options?: Search): Match[];

  /** What `findAll` and `findAllFlat` return, found on another thread. The text is copied by the call, so bytes may change after it. */
  findAllAsync(text: TextOf<P>, options?: Search): Promise<Match[]>;
  findAllFlatAsync(text: TextOf<P>, options?: Search): Promise<Uint32Array | Float64Array>;

  /** The text with each match replaced. A function is given the match. Bytes make a new Buffer. */
  replace(text: TextOf<P>, replacements: TextPerPattern<P> | ((match: Match) => TextOf<P>), options?: Words): ChangedOf<P>;
  /** The same, on another thread. A function is called on this one. The text is copied by the call. */
  replaceAsync(text: TextOf<P>, replacements: TextPerPattern<P> | ((match: Match) => TextOf<P>), options?: Words): Promise<ChangedOf<P>>;
  /** Reads replacements, so that many calls of `replace` needn't. */
  replacements(given: TextPerPattern<P>): Replacements<P>;

  /**
   * The text with a star for each unit, or byte, that lies in an occurrence, overlapping ones too. It is as long as the text. The star
   * is one UTF-16 unit, or one byte: a number, or a character of ASCII.
   */
  mask(text: TextOf<P>, star?: string | number, options?: Pick<Words, 'words'>): ChangedOf<P>;
  /** The same, where the bytes are. */
  maskInPlace(bytes: Uint8Array, star?: string | number, options?: Pick<Words, 'words'>): void;

  /** Begins a text that comes in pieces. No pattern may be empty. */
  stream(options?: Pieces): Stream<P>;
  /**
   * The matches of what a readable stream or another iterable has, each as soon as it is decided. For patterns of strings, chunks of
   * bytes are decoded as UTF-8, and places are UTF-16 units.
   */
  findStream(source: Iterable<string | Uint8Array> | AsyncIterable<string | Uint8Array>, options?: Pieces): AsyncGenerator<Match, void, void>;
  /**
   * A Transform of bytes that replaces each match. For patterns of strings the bytes are UTF-8. A function is given matches with places
   * in bytes. At most as many bytes as the longest pattern has are kept back between two chunks.
   */
  replaceStream(replacements: TextPerPattern<P> | ((match: Match) => TextOf<P>), options?: Words): Transform;
  /** A Transform of bytes that masks each byte of each occurrence, or of each whole word. It needs the standard kind. */
  maskStream(star?: string | number, options?: Pick<Words, 'words'>): Transform;
}
