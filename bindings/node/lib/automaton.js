'use strict';

const { Buffer } = require('node:buffer');
const { badArgument, badSetting } = require('./errors');
const { native, matchesOf, flatOf, firstOf } = require('./native');
const { ENGINES, SHORT, asked, changeOf, latinOf, lengthOf, maskOf, streamOf } = require('./options');
const { replacementsOf, spliced, utf8Of } = require('./replacements');
const { settingsOf, numbersOf, patternsOf } = require('./settings');
const { Stream, found, masking, replacing, splicing } = require('./streams');
const { Walk } = require('./walk');

const COLLECTED = 4 * SHORT;

/** What masks: one unit of a string, or one byte. */
function starOf(star, isText) {
  if (isText) {
    if (typeof star !== 'string') throw badArgument('a string is masked with a string');
    if (star.length !== 1) throw badSetting('DADO_BAD_ARGUMENT', `${JSON.stringify(star)} is not one UTF-16 unit`);
    return star.charCodeAt(0);
  }
  const byte = typeof star === 'string' && star.length === 1 ? star.charCodeAt(0) : star;
  if (typeof byte !== 'number') throw badArgument('bytes are masked with a byte: a number, or a string of one character');
  if (!Number.isInteger(byte) || byte < 0 || byte > (typeof star === 'string' ? 0x7f : 0xff)) {
    throw badSetting('DADO_BAD_ARGUMENT', `${String(star)} is not one byte`);
  }
  return byte;
}

/** Patterns that are searched for together. */
class Automaton {
  #patterns;
  #settings;
  #isText;
  #searcher;
  #utf8;

  constructor(patterns, settings) {
    this.#patterns = Object.freeze(patternsOf(patterns));
    this.#settings = settingsOf(settings);
    this.#isText = this.#patterns.length === 0 ? undefined : typeof this.#patterns[0] === 'string';
    this.#searcher = native.searcher(this.#patterns, this.#isText ? 1 : 0, ...numbersOf(this.#settings, this.#isText));
    this.#settings.pairs = Object.freeze(Array.from(this.#settings.pairs, (pair) => Object.freeze([...pair])));
  }

  get patterns() {
    return this.#patterns;
  }

  get kind() {
    return this.#settings.kind;
  }

  get startKind() {
    return this.#settings.startKind;
  }

  get fold() {
    return Boolean(this.#settings.fold);
  }

  get engine() {
    return ENGINES[native.about(this.#searcher)[0]];
  }

  get memory() {
    return native.about(this.#searcher)[1] + (this.#utf8 === undefined ? 0 : native.about(this.#utf8)[1]);
  }

  find(text, options) {
    return firstOf(asked(native.find, this.#searcher, text, options));
  }

  isMatch(text, options) {
    return asked(native.isMatch, this.#searcher, text, options);
  }

  findAll(text, options) {
    return matchesOf(asked(native.all, this.#searcher, text, options));
  }

  findAllFlat(text, options) {
    return flatOf(asked(native.all, this.#searcher, text, options));
  }

  overlapping(text, options) {
    return this.findAll(text, { ...options, overlapping: true });
  }

  matches(text, options) {
    if (lengthOf(text) <= COLLECTED) return this.findAll(text, options)[Symbol.iterator]();
    return new Walk(asked(native.walk, this.#searcher, text, options), text);
  }

  async findAllAsync(text, options) {
    return matchesOf(await asked(native.allLater, this.#searcher, text, options));
  }

  async findAllFlatAsync(text, options) {
    return asked(native.allLater, this.#searcher, text, options);
  }

  replacements(given) {
    if (typeof given === 'function') throw badArgument('a function is given to replace itself');
    return replacementsOf(this.#patterns, this.#isText, given);
  }

  replace(text, replacements, options) {
    const how = changeOf(options);
    if (typeof replacements === 'function') return spliced(text, this.matches(text, options), replacements);
    const by = replacementsOf(this.#patterns, this.#isText, replacements);
    const found = lengthOf(text) > SHORT
      ? native.replace(this.#searcher, text, how | latinOf(text), by.native)
      : native.all(this.#searcher, text, how);
    if (typeof found === 'string' || Buffer.isBuffer(found)) return found;
    return spliced(text, matchesOf(found), (match) => by.list[match.pattern]);
  }

  async replaceAsync(text, replacements, options) {
    const how = changeOf(options) | latinOf(text);
    if (typeof replacements === 'function') {
      const held = text instanceof Uint8Array ? Uint8Array.prototype.slice.call(text) : text;
      return spliced(held, matchesOf(await native.allLater(this.#searcher, held, how)), replacements);
    }
    return native.replaceLater(this.#searcher, text, how, replacementsOf(this.#patterns, this.#isText, replacements).native);
  }

  mask(text, star = '*', options) {
    return native.mask(this.#searcher, text, maskOf(options) | latinOf(text), starOf(star, typeof text === 'string'));
  }

  maskInPlace(bytes, star = '*', options) {
    native.maskInPlace(this.#searcher, bytes, maskOf(options), starOf(star, false));
  }

  stream(options) {
    return new Stream(this.#searcher, streamOf(options));
  }

  findStream(source, options) {
    return found(this.stream(options), source, this.#isText);
  }

  replaceStream(replacements, options) {
    const how = changeOf(options);
    const searcher = this.#ofBytes();
    if (typeof replacements === 'function') {
      const of = this.#isText ? (match) => utf8Of(replacements(match)) : replacements;
      return splicing(searcher, how, of);
    }
    const by = replacementsOf(this.#patterns, this.#isText, replacements);
    if (how === 0) return replacing(searcher, by.bytes);
    const list = by.isText ? by.list.map(utf8Of) : by.list;
    return splicing(searcher, how, (match) => list[match.pattern]);
  }

  maskStream(star = '*', options) {
    return masking(this.#ofBytes(), maskOf(options), starOf(star, false));
  }

  /** What searches bytes: for patterns of strings, their UTF-8. */
  #ofBytes() {
    if (!this.#isText) return this.#searcher;
    return (this.#utf8 ??= native.searcher(this.#patterns.map(utf8Of), 0, ...numbersOf(this.#settings, true)));
  }
}

module.exports = { Automaton };
