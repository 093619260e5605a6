'use strict';

// What matches are replaced by.

const { Buffer } = require('node:buffer');
const { badArgument, badSetting } = require('./errors');
const { native } = require('./native');

const SURROGATE = /\p{Surrogate}/u;

/** The UTF-8 of a string; one with half a surrogate pair has none. */
function utf8Of(text) {
  if (SURROGATE.test(text)) throw badArgument('a string with half a surrogate pair has no UTF-8, so a stream of bytes can\'t have it');
  return Buffer.from(text, 'utf8');
}

/** A replacement for each pattern of one automaton, read once. */
class Replacements {
  #list;
  #isText;
  #native;
  #bytes;

  constructor(list, isText) {
    this.#list = list;
    this.#isText = isText;
    Object.freeze(this);
  }

  get list() {
    return this.#list;
  }

  get isText() {
    return this.#isText;
  }

  /** As texts of the patterns' type are replaced by. */
  get native() {
    return (this.#native ??= native.replacements(this.#list, this.#isText ? 1 : 0));
  }

  /** As streams of bytes are. */
  get bytes() {
    return (this.#bytes ??= this.#isText ? native.replacements(this.#list.map(utf8Of), 0) : this.native);
  }
}

function byPattern(patterns, isText, given) {
  if (!isText && patterns.length > 0) throw badArgument('patterns of bytes are replaced by an array, one replacement or a function');
  const map = given instanceof Map ? given : new Map(Object.entries(given));
  const known = new Set(patterns);
  for (const key of map.keys()) {
    if (!known.has(key)) throw badSetting('DADO_BAD_PATTERN', `there is a replacement for ${JSON.stringify(key)}, which is no pattern`);
  }
  for (const pattern of known) {
    if (!map.has(pattern)) throw badSetting('DADO_WRONG_COUNT', `the pattern ${JSON.stringify(pattern)} has no replacement`);
  }
  return patterns.map((pattern) => map.get(pattern));
}

function listOf(patterns, isText, given) {
  if (typeof given === 'string' || given instanceof Uint8Array) return new Array(patterns.length).fill(given);
  if (Array.isArray(given)) return given.slice();
  if (given !== null && typeof given === 'object') return byPattern(patterns, isText, given);
  throw badArgument('replacements are an array, a Map or an object by pattern, one for all patterns, or a function');
}

/** Reads replacements: `isText` says whether they are strings; undefined where there are no patterns. */
function replacementsOf(patterns, isText, given) {
  if (given instanceof Replacements) {
    if (given.list.length !== patterns.length || given.isText !== Boolean(isText)) {
      throw badSetting('DADO_WRONG_COUNT', 'these replacements were made for another automaton');
    }
    return given;
  }
  const list = listOf(patterns, isText, given);
  if (list.length !== patterns.length) {
    throw badSetting('DADO_WRONG_COUNT', `there are ${list.length} replacements for ${patterns.length} patterns`);
  }
  for (let i = 0; i < list.length; i++) {
    if (isText ? typeof list[i] !== 'string' : !(list[i] instanceof Uint8Array)) {
      throw badArgument('the replacements are not all of the patterns\' type');
    }
  }
  return new Replacements(isText ? list : list.map((it) => Uint8Array.prototype.slice.call(it)), Boolean(isText));
}

// Splicing: a text with some matches replaced. `of(match)` is the replacement of a match.

function splicedString(text, matches, of) {
  let out = '';
  let at = 0;
  for (const match of matches) {
    const by = of(match);
    if (typeof by !== 'string') throw badArgument('the replacement of a match in a string is no string');
    out += text.slice(at, match.start) + by;
    at = match.end;
  }
  return at === 0 && out === '' ? text : out + text.slice(at);
}

/** The pieces of bytes, from `from` on, that stand for them; and where they end. */
function splicedPieces(text, matches, of, from) {
  const pieces = [];
  let at = 0;
  for (const match of matches) {
    const by = of(match);
    if (!(by instanceof Uint8Array)) throw badArgument('the replacement of a match in bytes is no Uint8Array');
    pieces.push(text.subarray(at, match.start - from), by);
    at = match.end - from;
  }
  return [pieces, at];
}

function spliced(text, matches, of) {
  if (typeof text === 'string') return splicedString(text, matches, of);
  const [pieces, at] = splicedPieces(text, matches, of, 0);
  pieces.push(text.subarray(at));
  return Buffer.concat(pieces);
}

module.exports = { Replacements, replacementsOf, spliced, splicedPieces, utf8Of };
