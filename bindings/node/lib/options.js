'use strict';

// What a call is asked for, as the numbers that native/native.h names.

const { badArgument, badSetting } = require('./errors');

const KINDS = ['standard', 'leftmost-first', 'leftmost-longest'];
const START_KINDS = ['unanchored', 'anchored', 'both'];
const ENGINES = ['auto', 'noncontiguous', 'contiguous', 'dfa'];

const OCCURRENCES = 1;
const WORDS = 2;
const KIND_SHIFT = 2;
const ANCHORED = 16;
const EARLIEST = 32;
const LATIN = 64;

/** A string up to this length is read as UTF-16 whatever it holds: to ask what it holds takes longer. */
const SHORT = 1024;
const BEYOND_LATIN = /[^\x00-\xff]/;

/** How many units or bytes a text has; -1 if it is none, which the addon refuses. */
function lengthOf(text) {
  return typeof text === 'string' || text instanceof Uint8Array ? text.length : -1;
}

/** Whether a text is a long string that has no unit past 0xFF, which takes one byte for each unit then. */
function latinOf(text) {
  return typeof text === 'string' && text.length > SHORT && !BEYOND_LATIN.test(text) ? LATIN : 0;
}

function numberOf(code, name, word, words) {
  const number = words.indexOf(word);
  if (number < 0) throw badSetting(code, `${name} is ${String(word)}, and not one of ${words.join(', ')}`);
  return number;
}

function place(name, value, least, most) {
  if (typeof value !== 'number') throw badArgument(`${name} is no number`);
  if (!Number.isInteger(value) || value < least || value > most) {
    throw badSetting('DADO_BAD_SPAN', `${name} is ${value}, and not from ${least} to ${most}`);
  }
  return value;
}

/** The options that each call takes; one that it doesn't take is refused. */
const OF_SEARCHES = ['words', 'kind', 'overlapping', 'anchored', 'earliest', 'start', 'end'];
const OF_CHANGES = ['words', 'kind'];
const OF_MASKS = ['words'];
const OF_STREAMS = ['words', 'kind', 'overlapping'];

function refuseOthers(options, taken) {
  if (options === null || typeof options !== 'object') throw badArgument('the options are no object');
  for (const name of Object.keys(options)) {
    if (!taken.includes(name) && options[name] !== undefined) throw badArgument(`this call has no option ${name}; it takes ${taken.join(', ')}`);
  }
}

/** The way of a call, and the kind of its words. */
function wayOf({ words = false, kind, overlapping = false }) {
  if (kind !== undefined && (!words || overlapping)) {
    throw badArgument('kind is for whole words one after another; matches have the kind of the automaton');
  }
  const number = kind === undefined ? 0 : numberOf('DADO_BAD_KIND', 'kind', kind, KINDS);
  return (overlapping ? OCCURRENCES : 0) | (words ? WORDS : 0) | (number << KIND_SHIFT);
}

/** How a text is searched, without its span. */
function howOf(text, options) {
  refuseOthers(options, OF_SEARCHES);
  const { words, overlapping, anchored, earliest, start, end } = options;
  if (words && (start !== undefined || end !== undefined)) throw badArgument('whole words are those of the whole text');
  if ((words || overlapping) && (anchored || earliest)) throw badArgument('anchored and earliest are for matches one after another');
  return wayOf(options) | (anchored ? ANCHORED : 0) | (earliest ? EARLIEST : 0) | latinOf(text);
}

/** Calls the addon for a text, with the span of the options if they have one. */
function asked(call, searcher, text, options) {
  if (options === undefined) return call(searcher, text, latinOf(text));
  const how = howOf(text, options);
  const { start, end } = options;
  const length = lengthOf(text);
  if (length < 0 || (start === undefined && end === undefined)) return call(searcher, text, how);
  const stop = end === undefined ? length : place('end', end, 0, length);
  return call(searcher, text, how, start === undefined ? place('start', 0, 0, stop) : place('start', start, 0, stop), stop);
}

/** The way of a replacement, a mask or a stream, which are of the whole text. */
function ofWhole(options, taken) {
  if (options === undefined) return 0;
  refuseOthers(options, taken);
  return wayOf(options);
}

const changeOf = (options) => ofWhole(options, OF_CHANGES);
const maskOf = (options) => ofWhole(options, OF_MASKS);

function streamOf(options) {
  const how = ofWhole(options, OF_STREAMS);
  if (how === OCCURRENCES) throw badArgument('a stream takes overlapping for whole words alone');
  return how;
}

module.exports = { KINDS, START_KINDS, ENGINES, SHORT, asked, changeOf, latinOf, lengthOf, maskOf, numberOf, streamOf };
