'use strict';

// Worked rows: what each call returns, written by hand.

const assert = require('node:assert');
const { test } = require('node:test');
const { Automaton, version } = require('dadofennel');

const TEXT = 'The quick brown fox.';
const triples = (matches) => Array.from(matches, ({ pattern, start, end }) => [pattern, start, end]);
const bytes = (text) => Buffer.from(text, 'latin1');

test('matches of strings', () => {
  const ac = new Automaton(['fox', 'brown', 'quick']);
  assert.deepStrictEqual(ac.findAll(TEXT), [
    { pattern: 2, start: 4, end: 9 },
    { pattern: 1, start: 10, end: 15 },
    { pattern: 0, start: 16, end: 19 },
  ]);
  assert.deepStrictEqual(ac.find(TEXT), { pattern: 2, start: 4, end: 9 });
  assert.strictEqual(ac.find('nothing'), null);
  assert.strictEqual(ac.isMatch(TEXT), true);
  assert.strictEqual(ac.isMatch('nothing'), false);
  assert.deepStrictEqual(triples(ac.matches(TEXT)), [[2, 4, 9], [1, 10, 15], [0, 16, 19]]);
  assert.deepStrictEqual(ac.findAllFlat(TEXT), Uint32Array.of(2, 4, 9, 1, 10, 15, 0, 16, 19));
});

test('matches of bytes', () => {
  const ac = new Automaton([bytes('fox'), Uint8Array.of(0xff, 0)]);
  const text = Uint8Array.of(0xff, 0, 0x66, 0x6f, 0x78, 0xff, 0xff, 0);
  assert.deepStrictEqual(triples(ac.findAll(text)), [[1, 0, 2], [0, 2, 5], [1, 6, 8]]);
  assert.deepStrictEqual(triples(ac.findAll(text.subarray(1))), [[0, 1, 4], [1, 5, 7]]);
  assert.deepStrictEqual(triples(ac.matches(text)), [[1, 0, 2], [0, 2, 5], [1, 6, 8]]);
});

test('three kinds', () => {
  const patterns = ['append', 'appendage', 'app'];
  const of = (kind, settings) => triples(new Automaton(patterns, { kind, ...settings }).findAll('append the appendage'));
  assert.deepStrictEqual(of('standard'), [[2, 0, 3], [2, 11, 14]]);
  assert.deepStrictEqual(of('leftmost-first'), [[0, 0, 6], [0, 11, 17]]);
  assert.deepStrictEqual(of('leftmost-longest'), [[0, 0, 6], [1, 11, 20]]);
  assert.deepStrictEqual(of('leftmost-longest', { engine: 'dfa' }), [[0, 0, 6], [1, 11, 20]]);
});

test('either case, and pairs', () => {
  assert.deepStrictEqual(triples(new Automaton(['APP'], { fold: true }).findAll('app aPp')), [[0, 0, 3], [0, 4, 7]]);
  assert.deepStrictEqual(triples(new Automaton(['\u00c9A'], { fold: true }).findAll('\u00e9a \u00c9a')), [[0, 3, 5]]);
  assert.deepStrictEqual(triples(new Automaton(['a0'], { pairs: [['0', 0x31]] }).findAll('a1a0a2')), [[0, 0, 2], [0, 2, 4]]);
  assert.deepStrictEqual(triples(new Automaton([Uint8Array.of(1)], { pairs: [[1, 0xfe]] }).findAll(Uint8Array.of(0xfe, 1, 2))), [[0, 0, 1], [0, 1, 2]]);
});

test('all occurrences', () => {
  const ac = new Automaton(['append', 'app', 'pp']);
  assert.deepStrictEqual(triples(ac.overlapping('append')), [[1, 0, 3], [2, 1, 3], [0, 0, 6]]);
  assert.deepStrictEqual(triples(ac.matches('append', { overlapping: true })), [[1, 0, 3], [2, 1, 3], [0, 0, 6]]);
  assert.deepStrictEqual(ac.find('append', { overlapping: true }), { pattern: 1, start: 0, end: 3 });
});

test('spans, and anchored searches', () => {
  const ac = new Automaton(['fox', 'quick'], { startKind: 'both' });
  assert.deepStrictEqual(triples(ac.findAll(TEXT, { start: 5 })), [[0, 16, 19]]);
  assert.deepStrictEqual(triples(ac.findAll(TEXT, { end: 18 })), [[1, 4, 9]]);
  assert.deepStrictEqual(ac.find(TEXT, { start: 20 }), null);
  assert.strictEqual(ac.find(TEXT, { anchored: true }), null);
  assert.deepStrictEqual(ac.find(TEXT, { anchored: true, start: 4 }), { pattern: 1, start: 4, end: 9 });
  assert.strictEqual(ac.isMatch(TEXT, { anchored: true, start: 16 }), true);
  const long = new Automaton(['ab', 'abc'], { kind: 'leftmost-longest' });
  assert.deepStrictEqual(long.find('xabc', { earliest: true }), { pattern: 0, start: 1, end: 3 });
});

test('whole words', () => {
  const ac = new Automaton(['new', 'new york']);
  const text = 'new yorker, new york';
  assert.deepStrictEqual(triples(ac.findAll(text, { words: true, kind: 'leftmost-longest' })), [[0, 0, 3], [1, 12, 20]]);
  assert.deepStrictEqual(triples(ac.overlapping(text, { words: true })), [[0, 0, 3], [0, 12, 15], [1, 12, 20]]);
  assert.strictEqual(ac.mask(text, '*', { words: true }), '*** yorker, ********');
  assert.strictEqual(ac.replace(text, ['old', 'York'], { words: true, kind: 'leftmost-longest' }), 'old yorker, York');
  assert.strictEqual(ac.isMatch('newer', { words: true }), false);
  assert.deepStrictEqual(new Automaton(['cat']).findAll('concatenate, cat_, \u00fccat', { words: true }), []);
  assert.deepStrictEqual(triples(new Automaton(['cat']).findAll('\u4e00cat cat', { words: true })), [[0, 5, 8]]);
});

test('replacement', () => {
  const ac = new Automaton(['fox', 'brown', 'quick']);
  const wanted = 'The slow grey sloth.';
  assert.strictEqual(ac.replace(TEXT, ['sloth', 'grey', 'slow']), wanted);
  assert.strictEqual(ac.replace(TEXT, { quick: 'slow', fox: 'sloth', brown: 'grey' }), wanted);
  assert.strictEqual(ac.replace(TEXT, new Map([['quick', 'slow'], ['fox', 'sloth'], ['brown', 'grey']])), wanted);
  assert.strictEqual(ac.replace(TEXT, ac.replacements(['sloth', 'grey', 'slow'])), wanted);
  assert.strictEqual(ac.replace(TEXT, '-'), 'The - - -.');
  assert.strictEqual(ac.replace(TEXT, (match) => ac.patterns[match.pattern].toUpperCase()), 'The QUICK BROWN FOX.');
  assert.strictEqual(ac.replace('nothing', ['a', 'b', 'c']), 'nothing');
  assert.strictEqual(ac.replace('', ['a', 'b', 'c']), '');
  const of = new Automaton([bytes('fox'), Uint8Array.of(0xff)]);
  for (const text of [bytes('\xfffox\xff'), new Uint8Array(bytes('\xfffox\xff'))]) {
    const made = of.replace(text, [bytes('sloth'), bytes('')]);
    assert.ok(Buffer.isBuffer(made));
    assert.deepStrictEqual(made, bytes('sloth'));
    assert.deepStrictEqual(of.replace(text, (match) => bytes(`${match.start}`)), bytes('014'));
  }
  const long = bytes('\xfffox-'.repeat(1000));
  assert.deepStrictEqual(of.replace(long, [bytes('sloth'), bytes('')]), bytes('sloth-'.repeat(1000)));
});

test('a result of bytes is a copy', () => {
  const text = bytes('no match');
  const made = new Automaton([bytes('fox')]).replace(text, [bytes('')]);
  made[0] = 0x4e;
  assert.strictEqual(text.toString(), 'no match');
});

test('bytes of a shared buffer, and of a part of one', () => {
  const ac = new Automaton([bytes('abc')]);
  const shared = new Uint8Array(new SharedArrayBuffer(12));
  shared.set(bytes('abc-abc-abcd'));
  assert.deepStrictEqual(triples(ac.findAll(shared)), [[0, 0, 3], [0, 4, 7], [0, 8, 11]]);
  assert.deepStrictEqual(triples(ac.findAll(shared.subarray(1, 10))), [[0, 3, 6]]);
  assert.deepStrictEqual(ac.replace(shared.subarray(4), [bytes('')]), bytes('-d'));
  ac.maskInPlace(shared.subarray(1));
  assert.deepStrictEqual(Buffer.from(shared), bytes('abc-***-***d'));
});

test('masks', () => {
  assert.strictEqual(new Automaton(['\u00e9t\u00e9', 't\u00e9 d\'or']).mask('l\'\u00e9t\u00e9 d\'or'), 'l\'********');
  assert.strictEqual(new Automaton(['abc', 'cde']).mask('xabcdex', '\u2588'), 'x\u2588\u2588\u2588\u2588\u2588x');
  const ac = new Automaton([bytes('abc'), bytes('cde')]);
  assert.deepStrictEqual(ac.mask(bytes('xabcdex'), '#'), bytes('x#####x'));
  assert.deepStrictEqual(ac.mask(bytes('xabcdex'), 0xff), bytes('x\xff\xff\xff\xff\xffx'));
  const lent = new Uint8Array(bytes('abcd cde'));
  ac.maskInPlace(lent);
  assert.deepStrictEqual(Buffer.from(lent), bytes('***d ***'));
  ac.maskInPlace(lent, 0, { words: true });
  assert.deepStrictEqual(Buffer.from(lent), bytes('***d ***'));
});

test('empty patterns, and none', () => {
  assert.deepStrictEqual(triples(new Automaton(['']).findAll('ab')), [[0, 0, 0], [0, 1, 1], [0, 2, 2]]);
  assert.deepStrictEqual(triples(new Automaton(['']).findAll('')), [[0, 0, 0]]);
  assert.deepStrictEqual(triples(new Automaton(['', 'a'], { kind: 'leftmost-longest' }).findAll('ba')), [[0, 0, 0], [1, 1, 2]]);
  assert.strictEqual(new Automaton(['']).replace('\u00e9\u0416', '-'), '-\u00e9-\u0416-');
  assert.strictEqual(new Automaton(['']).mask('ab'), 'ab');
  const none = new Automaton([]);
  assert.deepStrictEqual(none.findAll('ab'), []);
  assert.deepStrictEqual(none.findAll(bytes('ab')), []);
  assert.strictEqual(none.isMatch('ab'), false);
  assert.strictEqual(none.replace('ab', []), 'ab');
  assert.strictEqual(none.replace('ab'.repeat(1000), []), 'ab'.repeat(1000));
  assert.deepStrictEqual(none.replace(bytes('ab'), []), bytes('ab'));
  assert.strictEqual(none.mask('ab'), 'ab');
});

test('what an automaton says of itself', () => {
  const ac = new Automaton(new Set(['a', 'b']), { kind: 'leftmost-first', fold: true, engine: 'dfa' });
  assert.deepStrictEqual(ac.patterns, ['a', 'b']);
  assert.ok(Object.isFrozen(ac.patterns));
  assert.deepStrictEqual([ac.kind, ac.fold, ac.engine, ac.startKind], ['leftmost-first', true, 'dfa', 'unanchored']);
  assert.ok(ac.memory > 100);
  assert.match(version, /^\d+\.\d+\.\d+(-dev)?$/);
});

test('the bytes of patterns are copied', () => {
  const pattern = Uint8Array.of(1, 2);
  const ac = new Automaton([pattern]);
  pattern[0] = 9;
  assert.deepStrictEqual(ac.patterns, [Uint8Array.of(1, 2)]);
});

test('more matches than there is room for', () => {
  const ac = new Automaton(['a']);
  for (const count of [255, 256, 257, 1000, 70000]) {
    const text = 'ab'.repeat(count);
    const wanted = Array.from({ length: count }, (_, i) => [0, 2 * i, 2 * i + 1]);
    assert.deepStrictEqual(triples(ac.findAll(text)), wanted);
    assert.deepStrictEqual([...ac.findAllFlat(text)], wanted.flat());
    assert.deepStrictEqual(triples(ac.matches(text)), wanted);
    assert.deepStrictEqual(triples(new Automaton([bytes('a')]).matches(bytes(text))), wanted);
    assert.strictEqual(ac.replace(text, 'xy'), 'xyb'.repeat(count));
    for (const rest of ['c', '\u00fc', '\u4e00']) {
      const more = rest.repeat(2000);
      assert.strictEqual(ac.replace(text + more, 'xy'), 'xyb'.repeat(count) + more);
      assert.strictEqual(ac.replace(text + more, '\u0416'), '\u0416b'.repeat(count) + more);
    }
    assert.strictEqual(ac.mask(text), '*b'.repeat(count));
  }
});

test('a walk is left, and goes on in turn with others', () => {
  const ac = new Automaton(['a']);
  const text = 'ab'.repeat(10000);
  const [one, other] = [ac.matches(text), ac.matches(text)];
  for (let i = 0; i < 1000; i++) {
    assert.strictEqual(one.next().value.start, 2 * i);
    assert.strictEqual(ac.find('ba').start, 1);
    assert.strictEqual(other.next().value.start, 2 * i);
  }
  for (const match of one) {
    assert.strictEqual(match.start, 2000);
    break;
  }
  assert.deepStrictEqual(one.next(), { done: true, value: undefined });
  assert.strictEqual([...other].length, 9000);
  assert.deepStrictEqual(other.next(), { done: true, value: undefined });
});

test('a function that replaces may search itself', () => {
  const ac = new Automaton(['a', 'b']);
  const text = 'ab-'.repeat(3000);
  assert.strictEqual(ac.replace(text, (match) => ac.replace(ac.patterns[match.pattern], ['1', '2'])), '12-'.repeat(3000));
});
