'use strict';

// Strings: places are UTF-16 units, however the string is kept.

const assert = require('node:assert');
const { test } = require('node:test');
const { Automaton } = require('dadofennel');
const { occurrences, walk, replaced, masked, unitsOf } = require('./definitions');

const places = (matches) => Array.from(matches, ({ start, end }) => [start, end]);

/** All places where a string is, as `indexOf` finds them, without overlapping ones. */
function indices(text, pattern) {
  const found = [];
  for (let at = text.indexOf(pattern); at >= 0; at = text.indexOf(pattern, at + pattern.length)) found.push([at, at + pattern.length]);
  return found;
}

const FAR = Array.from({ length: 200 }, (_, i) => String.fromCharCode(0x4e00 + i));

/** Patterns beside a pattern, by which strings are searched in each way: by codes, and by one to three bytes for each unit. */
const beside = [[], ['\u00ff'], ['\u0416\u00e9'], FAR];

test('units, and not characters, are counted', () => {
  const text = 'a\u{1f600}b\u{1f601}\u00e9\u0416c';
  for (const more of beside) {
    for (const pattern of ['a', '\u{1f600}', 'b', '\u{1f601}\u00e9', '\u0416c', 'c']) {
      assert.deepStrictEqual(places(new Automaton([pattern, ...more.filter((it) => !text.includes(it))]).findAll(text)), indices(text, pattern));
    }
  }
});

test('half a surrogate pair', () => {
  const text = '\u{1f600}-\ud83d-\ude00-\ude00\ud83d';
  for (const more of [[], FAR]) {
    for (const pattern of ['\ud83d', '\ude00', '\ude00-', '-\ud83d', '\u{1f600}', '\ude00\ud83d']) {
      assert.deepStrictEqual(places(new Automaton([pattern, ...more]).findAll(text)), indices(text, pattern), JSON.stringify(pattern));
    }
    assert.strictEqual(new Automaton(['\ude00', ...more]).replace('\u{1f600}', new Array(more.length + 1).fill('\ude01')), '\u{1f601}');
    assert.strictEqual(new Automaton(['\ud83d', ...more]).mask('x\u{1f600}'), 'x*\ude00');
  }
});

test('a unit is not taken for the one that has its low byte', () => {
  for (const text of ['\u0141', '\u0141'.repeat(3000), `${'x'.repeat(3000)}\u0141`]) {
    assert.strictEqual(new Automaton(['A']).isMatch(text), false);
    assert.strictEqual(new Automaton(['A', '\u00e9']).isMatch(text), false);
    assert.strictEqual(new Automaton(['\u0416', 'A']).isMatch(text), false);
    assert.strictEqual(new Automaton(['A', ...FAR]).isMatch(text), false);
    assert.strictEqual(new Automaton(['A']).mask(text), text);
  }
});

test('each unit beyond ASCII, alone and beside all others', () => {
  const all = Array.from({ length: 0x10000 - 0x80 }, (_, i) => String.fromCharCode(0x80 + i)).join('');
  const few = new Automaton(['\u0080', '\u00ff', '\u0100', '\ud800', '\udfff', '\uffff']);
  assert.deepStrictEqual(few.findAll(all).map(({ pattern, start }) => [pattern, start + 0x80]),
    [[0, 0x80], [1, 0xff], [2, 0x100], [3, 0xd800], [4, 0xdfff], [5, 0xffff]]);
  const each = new Automaton([...Array(0x10000 - 0x80).keys()].map((i) => String.fromCharCode(0x80 + i)));
  assert.deepStrictEqual(places(each.findAll(all)), unitsOf(all).map((_, i) => [i, i + 1]));
});

/** As many units beyond ASCII as have codes, and one more. */
test('126 and 127 units beyond ASCII', () => {
  for (const count of [125, 126, 127, 128]) {
    for (const from of [0x80, 0x90, 0x100, 0x3000]) {
      const patterns = Array.from({ length: count }, (_, i) => `${String.fromCharCode(from + i)}a`);
      const ac = new Automaton(patterns);
      const text = `\u2000${patterns.join('')}\u2001a\u007fa\u0080a\u00ffa`;
      const all = occurrences(patterns, text);
      assert.deepStrictEqual(ac.findAll(text), walk(all, 'standard'));
      assert.deepStrictEqual(unitsOf(ac.mask(text, '\u2002')), masked(text, all, 0x2002));
      const long = `${text}${'\u00fe'.repeat(2000)}${text}`;
      assert.deepStrictEqual(ac.findAll(long), walk(occurrences(patterns, long), 'standard'));
    }
  }
});

/** The same text, as V8 may keep it. */
function forms(text) {
  const half = text.length >> 1;
  const cons = text.slice(0, half) + text.slice(half);
  const sliced = `\u2603xxxxxxxxxxxxxx${text}`.slice(15); // keeps two bytes for each unit
  const external = Buffer.from(text, 'utf16le').toString('utf16le');
  return { text, cons, sliced, external };
}

test('long strings in each form', () => {
  const patterns = ['fox', '\u00e9t\u00e9', '\u0416', 'f\u{1f600}'];
  const filler = 'nothing is here, '.repeat(200);
  const texts = {
    ascii: `${filler}fox${filler}fox`,
    latin: `${filler}\u00e9t\u00e9 fox${filler}\u00fc`,
    wide: `${filler}\u0416 fox${filler}f\u{1f600}\u4e00`,
  };
  for (const some of [patterns.slice(0, 1), patterns.slice(0, 2), patterns, [...patterns, ...FAR]]) {
    const ac = new Automaton(some);
    for (const [name, text] of Object.entries(texts)) {
      const all = occurrences(some, text);
      const matches = walk(all, 'standard');
      const by = some.map((it) => `<${it}>`);
      for (const [form, it] of Object.entries(forms(text))) {
        const what = `${name}, ${form}, ${some.length} patterns`;
        assert.deepStrictEqual(ac.findAll(it), matches, what);
        assert.deepStrictEqual([...ac.matches(it)], matches, what);
        assert.deepStrictEqual(ac.find(it), matches[0] ?? null, what);
        assert.deepStrictEqual(unitsOf(ac.replace(it, by)), replaced(text, matches, ({ pattern }) => by[pattern]), what);
        assert.deepStrictEqual(unitsOf(ac.mask(it)), masked(text, all, 0x2a), what);
        assert.deepStrictEqual(ac.findAll(it, { start: 3401, end: 3407 }), walk(occurrences(some, text, { start: 3401, end: 3407 }), 'standard'), what);
      }
    }
  }
});

test('many matches in long strings', () => {
  for (const more of [[], ['\u00ff'], ['\u0416'], FAR]) {
    for (const beside of ['', '\u00e9', '\u3000']) {
      const ac = new Automaton(['fox', ...more]);
      for (const by of ['sloth', '\u00fc', '\u0417']) {
        assert.strictEqual(ac.replace(`fox ${beside} `.repeat(1000), by), `${by} ${beside} `.repeat(1000));
      }
      assert.strictEqual(ac.mask(`fox ${beside} `.repeat(1000)), `*** ${beside} `.repeat(1000));
      assert.strictEqual(ac.findAll(`fox ${beside} `.repeat(1000)).length, 1000);
    }
  }
});

test('strings about as long as what is read at once', () => {
  for (const length of [1022, 1023, 1024, 1025, 1026, 4095, 4096, 4097]) {
    for (const fill of ['x', '\u00fc', '\u3000']) {
      for (const more of [[], ['\u00e9'], ['\u0416'], FAR]) {
        const text = `${fill.repeat(length - 3)}fox`;
        const ac = new Automaton(['fox', ...more]);
        assert.deepStrictEqual(ac.find(text), { pattern: 0, start: length - 3, end: length });
        assert.deepStrictEqual([...ac.matches(text)].slice(-1), [{ pattern: 0, start: length - 3, end: length }]);
        assert.strictEqual(ac.mask(text, '*').slice(-4), `${more.includes(fill) ? '*' : fill}***`);
        assert.strictEqual(ac.isMatch(text, { start: 0, end: length - 1 }), false);
      }
    }
  }
});

test('an empty pattern among units of several bytes', () => {
  const text = 'a\u0416\u4e00\u{1f600}';
  for (const kind of ['standard', 'leftmost-first', 'leftmost-longest']) {
    const patterns = ['', '\u0416', ...FAR];
    const ac = new Automaton(patterns, { kind });
    const matches = walk(occurrences(patterns, text), kind);
    assert.deepStrictEqual(ac.findAll(text), matches);
    assert.deepStrictEqual(unitsOf(ac.replace(text, '-')), replaced(text, matches, () => '-'));
    if (kind === 'standard') assert.deepStrictEqual(ac.overlapping(text), occurrences(patterns, text));
    const long = text.repeat(700);
    assert.deepStrictEqual([...ac.matches(long)], walk(occurrences(patterns, long), kind));
  }
});
