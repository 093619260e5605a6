'use strict';

// What each call refuses, and by which error.

const assert = require('node:assert');
const { test } = require('node:test');
const { Automaton } = require('dadofennel');

const refused = (type, code) => (error) => {
  assert.strictEqual(Object.getPrototypeOf(error), type.prototype, `${error.name} ${error.message}`);
  assert.strictEqual(error.code, code, error.message);
  assert.ok(error.message.length > 0);
  return true;
};
const refuses = (call, type, code) => assert.throws(call, refused(type, code));

test('patterns', () => {
  for (const patterns of ['fox', Buffer.from('fox'), undefined, null, 7, {}]) {
    refuses(() => new Automaton(patterns), TypeError, 'DADO_BAD_ARGUMENT');
  }
  for (const patterns of [['a', Buffer.from('b')], [Buffer.from('b'), 'a'], [1], [null], [new Uint16Array(2)], [[1]]]) {
    refuses(() => new Automaton(patterns), TypeError, 'DADO_BAD_ARGUMENT');
  }
  assert.throws(() => Automaton(['a']), TypeError);
});

test('settings', () => {
  const of = (settings) => () => new Automaton(['a'], settings);
  refuses(of({ kind: 'first' }), RangeError, 'DADO_BAD_KIND');
  refuses(of({ startKind: 'no' }), RangeError, 'DADO_BAD_START_KIND');
  refuses(of({ engine: 'packed' }), RangeError, 'DADO_BAD_ENGINE');
  refuses(of({ pairs: [[1, 2], [2, 3]] }), RangeError, 'DADO_BAD_PAIRS');
  refuses(of({ pairs: [[1, 2]], fold: true }), RangeError, 'DADO_BAD_PAIRS');
  refuses(of({ pairs: [[1]] }), RangeError, 'DADO_BAD_PAIRS');
  refuses(of({ pairs: [['\u00e9', 'a']] }), RangeError, 'DADO_BAD_PAIRS');
  refuses(of({ pairs: [[0x80, 1]] }), RangeError, 'DADO_BAD_PAIRS');
  refuses(of({ pairs: [['ab', 'c']] }), TypeError, 'DADO_BAD_ARGUMENT');
  refuses(of({ denseDepth: -1 }), RangeError, 'DADO_BAD_ARGUMENT');
  refuses(of({ rowMemory: 1.5 }), RangeError, 'DADO_BAD_ARGUMENT');
  refuses(of({ rowMemory: '1' }), TypeError, 'DADO_BAD_ARGUMENT');
  refuses(of({ caseless: true }), TypeError, 'DADO_BAD_ARGUMENT');
  refuses(of('fold'), TypeError, 'DADO_BAD_ARGUMENT');
  refuses(of(null), TypeError, 'DADO_BAD_ARGUMENT');
  assert.strictEqual(new Automaton(['a'], { denseDepth: 0, rowMemory: 0, engine: 'contiguous', kind: undefined }).isMatch('a'), true);
  assert.strictEqual(new Automaton(['a'], { denseDepth: Infinity, engine: 'noncontiguous' }).isMatch('a'), true);
});

/** One pattern of 9 MB is the least that passes the limit. It takes ten seconds, so it is asked for by LARGE. */
test('more states than an engine has', { skip: !process.env.LARGE }, () => {
  refuses(() => new Automaton(['x'.repeat(9e6)], { engine: 'dfa', byteClasses: false }), RangeError, 'DADO_TOO_MANY_STATES');
});

test('texts of another type', () => {
  const ofText = new Automaton(['fox']);
  const ofBytes = new Automaton([Buffer.from('fox')]);
  for (const name of ['find', 'isMatch', 'findAll', 'findAllFlat', 'overlapping', 'matches', 'mask']) {
    for (const text of [Buffer.from('fox'), 7, null, undefined, {}, ['fox'], new String('fox')]) {
      refuses(() => ofText[name](text), TypeError, 'DADO_BAD_ARGUMENT');
    }
    for (const text of ['fox', 7, null, new Uint16Array(3), new ArrayBuffer(3), new DataView(new ArrayBuffer(3)), [1]]) {
      refuses(() => ofBytes[name](text), TypeError, 'DADO_BAD_ARGUMENT');
    }
    refuses(() => ofText[name](), TypeError, 'DADO_BAD_ARGUMENT');
  }
  refuses(() => ofText.replace(Buffer.from('fox'), ['a']), TypeError, 'DADO_BAD_ARGUMENT');
  refuses(() => ofBytes.replace('fox', [Buffer.from('a')]), TypeError, 'DADO_BAD_ARGUMENT');
  refuses(() => ofBytes.replace('fox'.repeat(1000), [Buffer.from('a')]), TypeError, 'DADO_BAD_ARGUMENT');
  refuses(() => ofText.maskInPlace(Buffer.from('fox')), TypeError, 'DADO_BAD_ARGUMENT');
  refuses(() => ofBytes.maskInPlace('fox'), TypeError, 'DADO_BAD_ARGUMENT');
  refuses(() => ofText.stream().push(Buffer.from('a')), TypeError, 'DADO_BAD_ARGUMENT');
  refuses(() => ofBytes.stream().push('a'), TypeError, 'DADO_BAD_ARGUMENT');
  refuses(() => Object.create(Uint8Array.prototype) && ofBytes.find(Object.create(Uint8Array.prototype)), TypeError, 'DADO_BAD_ARGUMENT');
});

test('searches that an automaton was not built for', () => {
  const leftmost = new Automaton(['a'], { kind: 'leftmost-first' });
  refuses(() => leftmost.overlapping('a'), Error, 'DADO_NOT_STANDARD');
  refuses(() => leftmost.mask('a'), Error, 'DADO_NOT_STANDARD');
  refuses(() => leftmost.mask('a'.repeat(2000)), Error, 'DADO_NOT_STANDARD');
  refuses(() => leftmost.findAll('a', { words: true }), Error, 'DADO_NOT_STANDARD');
  refuses(() => leftmost.replace('a', 'b', { words: true }), Error, 'DADO_NOT_STANDARD');
  refuses(() => leftmost.stream({ words: true }), Error, 'DADO_NOT_STANDARD');
  refuses(() => leftmost.maskStream(), Error, 'DADO_NOT_STANDARD');
  refuses(() => leftmost.find('a', { anchored: true }), Error, 'DADO_NOT_ANCHORED');
  const anchored = new Automaton(['a'], { startKind: 'anchored' });
  refuses(() => anchored.find('a'), Error, 'DADO_NOT_UNANCHORED');
  refuses(() => anchored.replace('a', 'b'), Error, 'DADO_NOT_UNANCHORED');
  refuses(() => anchored.stream(), Error, 'DADO_NOT_UNANCHORED');
  const empty = new Automaton(['', 'a']);
  refuses(() => empty.stream(), Error, 'DADO_EMPTY_PATTERN');
  refuses(() => empty.replaceStream(['a', 'b']), Error, 'DADO_EMPTY_PATTERN');
  refuses(() => empty.maskStream(), Error, 'DADO_EMPTY_PATTERN');
  refuses(() => empty.findAll('a', { words: true }), Error, 'DADO_EMPTY_PATTERN');
});

test('spans and options', () => {
  const ac = new Automaton(['a']);
  for (const span of [{ start: 4 }, { end: 4 }, { start: 2, end: 1 }, { start: -1 }, { start: 0.5 }, { end: NaN }, { start: Infinity }]) {
    for (const name of ['find', 'isMatch', 'findAll', 'findAllFlat', 'overlapping', 'matches']) {
      refuses(() => ac[name]('aaa', span), RangeError, 'DADO_BAD_SPAN');
      refuses(() => new Automaton([Buffer.from('a')])[name](new Uint8Array(3), span), RangeError, 'DADO_BAD_SPAN');
    }
  }
  refuses(() => ac.find('a', { start: '0' }), TypeError, 'DADO_BAD_ARGUMENT');
  refuses(() => ac.find('a', null), TypeError, 'DADO_BAD_ARGUMENT');
  refuses(() => ac.find('a', 'words'), TypeError, 'DADO_BAD_ARGUMENT');
  refuses(() => ac.find('a', { kind: 'standard' }), TypeError, 'DADO_BAD_ARGUMENT');
  refuses(() => ac.overlapping('a', { words: true, kind: 'standard' }), TypeError, 'DADO_BAD_ARGUMENT');
  refuses(() => ac.find('a', { words: true, kind: 'longest' }), RangeError, 'DADO_BAD_KIND');
  refuses(() => ac.find('a', { words: true, start: 0 }), TypeError, 'DADO_BAD_ARGUMENT');
  refuses(() => ac.find('a', { words: true, anchored: true }), TypeError, 'DADO_BAD_ARGUMENT');
  refuses(() => ac.overlapping('a', { anchored: true }), TypeError, 'DADO_BAD_ARGUMENT');
  refuses(() => ac.replace('a', 'b', 7), TypeError, 'DADO_BAD_ARGUMENT');
});

const TAKEN = {
  words: ['find', 'isMatch', 'findAll', 'findAllFlat', 'matches', 'overlapping', 'replace', 'mask', 'maskInPlace', 'stream', 'findStream', 'replaceStream', 'maskStream'],
  kind: ['find', 'isMatch', 'findAll', 'findAllFlat', 'matches', 'replace', 'stream', 'findStream', 'replaceStream'],
  overlapping: ['find', 'isMatch', 'findAll', 'findAllFlat', 'matches', 'overlapping', 'stream', 'findStream'],
  anchored: ['find', 'isMatch', 'findAll', 'findAllFlat', 'matches'],
  earliest: ['find', 'isMatch', 'findAll', 'findAllFlat', 'matches'],
  start: ['find', 'isMatch', 'findAll', 'findAllFlat', 'matches', 'overlapping'],
  end: ['find', 'isMatch', 'findAll', 'findAllFlat', 'matches', 'overlapping'],
  word: [],
};
const VALUES = { kind: 'standard', start: 0, end: 1 };

test('each call takes its own options, and refuses all others', async () => {
  const ac = new Automaton(['a'], { startKind: 'both' });
  const calls = {
    find: (it) => ac.find('a', it), isMatch: (it) => ac.isMatch('a', it), findAll: (it) => ac.findAll('a', it),
    findAllFlat: (it) => ac.findAllFlat('a', it), matches: (it) => ac.matches('a', it), overlapping: (it) => ac.overlapping('a', it),
    replace: (it) => ac.replace('a', 'b', it), mask: (it) => ac.mask('a', '*', it), stream: (it) => ac.stream(it),
    maskInPlace: (it) => new Automaton([Buffer.from('a')]).maskInPlace(Buffer.from('a'), '*', it),
    findStream: (it) => ac.findStream(['a'], it), replaceStream: (it) => ac.replaceStream('b', it), maskStream: (it) => ac.maskStream('*', it),
  };
  for (const [option, taken] of Object.entries(TAKEN)) {
    const given = { [option]: VALUES[option] ?? true };
    if (option === 'kind') given.words = true;
    for (const [name, call] of Object.entries(calls)) {
      const isStream = name === 'stream' || name === 'findStream';
      const options = isStream && option === 'overlapping' ? { ...given, words: true } : given;
      if (taken.includes(name)) call(options);
      else refuses(() => call(options), TypeError, 'DADO_BAD_ARGUMENT');
      call({ [option]: undefined });
    }
  }
  refuses(() => ac.stream({ overlapping: true }), TypeError, 'DADO_BAD_ARGUMENT');
  refuses(() => ac.stream({ words: true, overlapping: true, kind: 'standard' }), TypeError, 'DADO_BAD_ARGUMENT');
  await assert.rejects(ac.replaceAsync('a', 'b', { start: 0 }), refused(TypeError, 'DADO_BAD_ARGUMENT'));
  await assert.rejects(ac.findAllAsync('a', { word: true }), refused(TypeError, 'DADO_BAD_ARGUMENT'));
});

test('replacements', () => {
  const ac = new Automaton(['a', 'b']);
  refuses(() => ac.replace('a', ['x']), RangeError, 'DADO_WRONG_COUNT');
  refuses(() => ac.replace('none', ['x', 'y', 'z']), RangeError, 'DADO_WRONG_COUNT');
  refuses(() => ac.replace('a', { a: 'x' }), RangeError, 'DADO_WRONG_COUNT');
  refuses(() => ac.replace('a', { a: 'x', b: 'y', c: 'z' }), RangeError, 'DADO_BAD_PATTERN');
  refuses(() => ac.replace('none', ['x', 7]), TypeError, 'DADO_BAD_ARGUMENT');
  refuses(() => ac.replace('none', ['x', Buffer.from('y')]), TypeError, 'DADO_BAD_ARGUMENT');
  refuses(() => ac.replace('none', Buffer.from('y')), TypeError, 'DADO_BAD_ARGUMENT');
  refuses(() => ac.replace('none', undefined), TypeError, 'DADO_BAD_ARGUMENT');
  refuses(() => ac.replace('none', 7), TypeError, 'DADO_BAD_ARGUMENT');
  refuses(() => ac.replace('a', () => 7), TypeError, 'DADO_BAD_ARGUMENT');
  refuses(() => ac.replacements(() => 'x'), TypeError, 'DADO_BAD_ARGUMENT');
  refuses(() => new Automaton(['a']).replace('a', ac.replacements(['x', 'y'])), RangeError, 'DADO_WRONG_COUNT');
  const of = new Automaton([Buffer.from('a')]);
  refuses(() => of.replace(Buffer.from('a'), { a: Buffer.from('x') }), TypeError, 'DADO_BAD_ARGUMENT');
  refuses(() => of.replace(Buffer.from('a'), ['x']), TypeError, 'DADO_BAD_ARGUMENT');
  refuses(() => of.replace(Buffer.from('a'), () => 'x'), TypeError, 'DADO_BAD_ARGUMENT');
  const error = new Error('of the caller');
  assert.throws(() => ac.replace('a', () => { throw error; }), error);
});

test('stars', () => {
  const ac = new Automaton(['a']);
  for (const star of ['', '**', '\u{1f600}']) refuses(() => ac.mask('a', star), RangeError, 'DADO_BAD_ARGUMENT');
  for (const star of [7, null, {}]) refuses(() => ac.mask('a', star), TypeError, 'DADO_BAD_ARGUMENT');
  const of = new Automaton([Buffer.from('a')]);
  for (const star of ['\u00e9', -1, 256, 0.5]) refuses(() => of.mask(Buffer.from('a'), star), RangeError, 'DADO_BAD_ARGUMENT');
  for (const star of ['', '**', {}, null]) refuses(() => of.mask(Buffer.from('a'), star), TypeError, 'DADO_BAD_ARGUMENT');
});

test('streams', () => {
  const stream = new Automaton(['a']).stream();
  stream.finish();
  assert.deepStrictEqual(stream.finish(), []);
  refuses(() => stream.push('a'), Error, 'DADO_FINISHED');
  refuses(() => new Automaton(['\ud83d']).replaceStream(['a']), TypeError, 'DADO_BAD_ARGUMENT');
  refuses(() => new Automaton(['a']).replaceStream(['\ud83d']), TypeError, 'DADO_BAD_ARGUMENT');
  refuses(() => new Automaton(['a']).replaceStream(['b', 'c']), RangeError, 'DADO_WRONG_COUNT');
  refuses(() => new Automaton(['a']).replaceStream(7), TypeError, 'DADO_BAD_ARGUMENT');
  refuses(() => new stream.constructor({}, 0), TypeError, 'DADO_BAD_ARGUMENT');
});

test('a string that would be too long', () => {
  const ac = new Automaton(['a']);
  refuses(() => ac.replace('a'.repeat(3000), 'x'.repeat(300000)), RangeError, 'ERR_STRING_TOO_LONG');
  refuses(() => ac.replace('a'.repeat(3000), '\u0416'.repeat(300000)), RangeError, 'ERR_STRING_TOO_LONG');
});

test('bytes that are gone, or another length, in the middle of a walk', () => {
  const ac = new Automaton([Buffer.from('a')]);
  const text = new Uint8Array(10000).fill(0x61);
  const walk = ac.matches(text);
  for (let i = 0; i < 256; i++) walk.next();
  structuredClone(text, { transfer: [text.buffer] });
  refuses(() => walk.next(), RangeError, 'DADO_BAD_CURSOR');
  assert.deepStrictEqual(ac.findAll(text), []);
});
