'use strict';

// The patterns and the settings of an automaton, as the addon takes them.

const { badArgument, badSetting } = require('./errors');
const { KINDS, START_KINDS, ENGINES, numberOf } = require('./options');

const { Float64Array, Uint8Array } = globalThis; // a program may set these names later

const DEFAULTS = Object.freeze({
  kind: 'standard',
  startKind: 'unanchored',
  engine: 'auto',
  fold: false,
  prefilter: true,
  byteClasses: true,
  denseDepth: undefined,
  rowMemory: undefined,
  pairs: Object.freeze([]),
});

const FOLD = 1;
const PREFILTER = 2;
const BYTE_CLASSES = 4;

/** The settings that were given, and the default ones. */
function settingsOf(given = {}) {
  if (given === null || typeof given !== 'object') throw badArgument('the settings are no object');
  for (const name of Object.keys(given)) {
    if (!Object.hasOwn(DEFAULTS, name)) throw badArgument(`there is no setting ${name}`);
  }
  const settings = { ...DEFAULTS };
  for (const name of Object.keys(DEFAULTS)) {
    if (given[name] !== undefined) settings[name] = given[name];
  }
  return settings;
}

/** A number of bytes or of states, or -1 for the library's own. */
function sizeOf(name, value) {
  if (value === undefined || value === Infinity) return value === undefined ? -1 : Number.MAX_SAFE_INTEGER;
  if (typeof value !== 'number') throw badArgument(`${name} is no number`);
  if (!Number.isSafeInteger(value) || value < 0) throw badSetting('DADO_BAD_ARGUMENT', `${name} is ${value}`);
  return value;
}

/** The byte of one side of a pair: a number, or a character of ASCII. */
function byteOf(side, areText) {
  const byte = typeof side === 'string' && side.length === 1 ? side.charCodeAt(0) : side;
  if (typeof byte !== 'number') throw badArgument('a pair has two bytes: numbers, or strings of one character');
  const most = areText || typeof side === 'string' ? 0x7f : 0xff;
  if (!Number.isInteger(byte) || byte < 0 || byte > most) throw badSetting('DADO_BAD_PAIRS', `${String(side)} can't be paired: it is no byte up to ${most}`);
  return byte;
}

function pairsOf(pairs, areText) {
  const bytes = [];
  for (const pair of pairs) {
    const sides = [...pair];
    if (sides.length !== 2) throw badSetting('DADO_BAD_PAIRS', `a pair has two bytes, and not ${sides.length}`);
    bytes.push(byteOf(sides[0], areText), byteOf(sides[1], areText));
  }
  return Uint8Array.from(bytes);
}

/** The settings as numbers, and the bytes of the pairs. */
function numbersOf(settings, areText) {
  const numbers = Float64Array.of(
    numberOf('DADO_BAD_KIND', 'kind', settings.kind, KINDS),
    numberOf('DADO_BAD_START_KIND', 'startKind', settings.startKind, START_KINDS),
    numberOf('DADO_BAD_ENGINE', 'engine', settings.engine, ENGINES),
    (settings.fold ? FOLD : 0) | (settings.prefilter ? PREFILTER : 0) | (settings.byteClasses ? BYTE_CLASSES : 0),
    sizeOf('denseDepth', settings.denseDepth),
    sizeOf('rowMemory', settings.rowMemory),
  );
  return [numbers, pairsOf(settings.pairs, areText)];
}

/** The patterns as an array: strings, or copies of the bytes. */
function patternsOf(given) {
  if (typeof given === 'string' || given instanceof Uint8Array) throw badArgument('the patterns are one text; give an array of them');
  if (given === null || given === undefined || typeof given[Symbol.iterator] !== 'function') throw badArgument('the patterns are no array');
  const patterns = [...given];
  const areText = typeof patterns[0] === 'string';
  if (!patterns.every((it) => (areText ? typeof it === 'string' : it instanceof Uint8Array))) {
    throw badArgument('the patterns are neither all strings nor all Uint8Arrays');
  }
  return areText ? patterns : patterns.map((it) => Uint8Array.prototype.slice.call(it));
}

module.exports = { settingsOf, numbersOf, patternsOf };
