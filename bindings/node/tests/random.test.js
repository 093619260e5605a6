'use strict';

// Random cases beside the definitions. CASES says how many; SEED where they begin.

const assert = require('node:assert');
const { once } = require('node:events');
const { test } = require('node:test');
const { Automaton } = require('dadofennel');
const { unitsOf, occurrences, best, walk, wholeWords, replaced, masked } = require('./definitions');

const CASES = Number(process.env.CASES || 2000);
const SEED = Number(process.env.SEED || 1);
const KINDS = ['standard', 'leftmost-first', 'leftmost-longest'];

/** Numbers in a row that look random, and are the same for the same seed. */
function random(seed) {
  let state = (seed * 2654435761 + 12345) >>> 0;
  const next = () => {
    state = (state + 0x6d2b79f5) >>> 0;
    let it = Math.imul(state ^ (state >>> 15), state | 1);
    it ^= it + Math.imul(it ^ (it >>> 7), it | 61);
    return ((it ^ (it >>> 14)) >>> 0) / 4294967296;
  };
  const below = (limit) => Math.floor(next() * limit);
  return { next, below, pick: (list) => list[below(list.length)] };
}

const MANY = String.fromCharCode(...Array.from({ length: 300 }, (_, i) => 0x3000 + i));
const ALPHABETS = ['ab', 'aAbB_ ', 'abc -', 'a\u00e9\u00f7 ', 'a\u00e9\u0416 \u{1f600}', 'a\ud83d\ude00', 'a_\u0416\u3001\u3002\u3003', MANY,
  'a\u007f\u0080\u07ff\u0800\uffff'];
/** Units that aren't in a pattern, as a rule: those of Latin-1 that may be codes of others, and of which the low byte is `a`. */
const OTHERS = ['\u0080\u0081\u0082\u0083', '\u0161\u0261', '\u0080\u00ff\u0161\uffff'];
const BYTES = [[0x61, 0x62], [0x61, 0x41, 0x5f, 0x20], [0, 0xff], Array.from({ length: 256 }, (_, i) => i)];

/** A word of up to so many units, or bytes. */
function wordOf(draw, alphabet, most) {
  const units = Array.from({ length: draw.below(most + 1) }, () => draw.pick(alphabet));
  return typeof alphabet === 'string' ? units.join('') : Uint8Array.from(units);
}

const joined = (texts, areText) => (areText ? texts.join('') : new Uint8Array(Buffer.concat(texts)));

function textOf(draw, alphabet, patterns, areText) {
  const count = draw.pick([0, 1, 4, 12]);
  const parts = Array.from({ length: count }, () => (draw.next() < 0.5 ? draw.pick(patterns) : wordOf(draw, alphabet, 4)));
  const add = (part) => parts.splice(draw.below(parts.length + 1), 0, part);
  if (areText && draw.next() < 0.3) add(wordOf(draw, draw.pick(OTHERS), 4));
  if (areText && draw.next() < 0.2) add(draw.pick([' ', 'z', '\u00fc', '\u4e00']).repeat(1030));
  const text = joined(parts, areText);
  if (text.length === 0 || draw.next() < 0.95) return text;
  return joined(new Array(Math.ceil(1100 / text.length)).fill(text), areText); // some hundred matches, as a rule
}

function caseOf(seed) {
  const draw = random(seed);
  const areText = draw.next() < 0.7;
  const alphabet = draw.pick(areText ? ALPHABETS : BYTES);
  const least = draw.next() < 0.3 ? 0 : 1;
  const patterns = [];
  for (let left = draw.pick([1, 2, 5, 12]); left > 0; left--) {
    const pattern = wordOf(draw, alphabet, draw.pick([1, 2, 3, 6]));
    patterns.push(pattern.length >= least ? pattern : joined([alphabet[0]].map((it) => (areText ? it : Uint8Array.of(it))), areText));
  }
  if (areText && draw.next() < 0.15) patterns.push(MANY.slice(0, 200));
  const fold = draw.next() < 0.3;
  return {
    draw,
    areText,
    patterns,
    text: textOf(draw, alphabet, patterns, areText),
    settings: {
      kind: draw.pick(KINDS),
      startKind: 'both',
      fold,
      pairs: !fold && draw.next() < 0.2 ? [['a', '_'], [0x62, 0x20]] : [],
      engine: draw.pick(['auto', 'noncontiguous', 'contiguous', 'dfa']),
      prefilter: draw.next() < 0.7,
      byteClasses: draw.next() < 0.7,
    },
  };
}

/** A string or bytes that were made, beside the units that there should be. */
function same(made, units) {
  const wanted = typeof made === 'string' ? String.fromCharCode(...units) : Buffer.from(units);
  if (typeof made === 'string') assert.strictEqual(made, wanted);
  else assert.ok(Buffer.compare(made, wanted) === 0, `${made} is not ${wanted}`);
}

const flat = (matches) => matches.flatMap((it) => [it.pattern, it.start, it.end]);
const pairsOf = (settings) => settings.pairs.map((pair) => pair.map((it) => (typeof it === 'string' ? it.charCodeAt(0) : it)));

function compareWalks(it, ac, all, rules) {
  const { text, settings } = it;
  const matches = walk(all, settings.kind);
  assert.deepStrictEqual(ac.findAll(text), matches);
  assert.deepStrictEqual([...ac.findAllFlat(text)], flat(matches));
  assert.deepStrictEqual([...ac.matches(text)], matches);
  assert.deepStrictEqual(ac.find(text), matches[0] ?? null);
  assert.strictEqual(ac.isMatch(text), matches.length > 0);
  const start = it.draw.below(text.length + 1);
  const end = start + it.draw.below(text.length - start + 1);
  const within = occurrences(it.patterns, text, { ...rules, start, end });
  assert.deepStrictEqual(ac.findAll(text, { start, end }), walk(within, settings.kind, { start }));
  assert.deepStrictEqual(ac.find(text, { start, end, earliest: true }), best(within, 'standard', start, false));
  assert.deepStrictEqual(ac.find(text, { start, end, anchored: true }), best(within, settings.kind, start, true));
  assert.deepStrictEqual(ac.findAll(text, { start, end, anchored: true }), walk(within, settings.kind, { start, anchored: true }));
  if (settings.kind === 'standard') {
    assert.deepStrictEqual(ac.overlapping(text), all);
    assert.deepStrictEqual(ac.overlapping(text, { start, end }), within);
  }
  return matches;
}

/** What a list, one for all, and a function replace. */
function compareReplaced(it, ac, matches, options) {
  const { text, patterns, areText, draw } = it;
  const made = patterns.map((_, i) => (areText ? draw.pick(['', `<${i}>`, '\u00e9', '\u0416\u{1f600}']) : Uint8Array.from([i, 0, 0xff].slice(draw.below(4)))));
  const wanted = replaced(text, matches, (found) => made[found.pattern]);
  same(ac.replace(text, made, options), wanted);
  same(ac.replace(text, ac.replacements(made), options), wanted);
  same(ac.replace(text, (found) => made[found.pattern], options), wanted);
  const one = made[0];
  same(ac.replace(text, one, options), replaced(text, matches, () => one));
}

function compareWords(it, ac, all) {
  const { text, patterns } = it;
  const words = wholeWords(all, text);
  assert.deepStrictEqual(ac.overlapping(text, { words: true }), words);
  same(ac.mask(text, '#', { words: true }), masked(text, words, 0x23));
  for (const kind of KINDS) {
    const matches = walk(words, kind);
    const options = { words: true, kind };
    assert.deepStrictEqual(ac.findAll(text, options), matches);
    assert.deepStrictEqual(ac.find(text, options), matches[0] ?? null);
    assert.strictEqual(ac.isMatch(text, options), matches.length > 0);
    assert.deepStrictEqual([...ac.matches(text, options)], matches);
    compareReplaced(it, ac, matches, options);
    comparePieces(it, ac, matches, options);
  }
  assert.ok(patterns.every((pattern) => pattern.length > 0));
}

/** The text is pushed in pieces. */
function comparePieces(it, ac, matches, options) {
  const stream = ac.stream(options);
  const found = [];
  for (let at = 0; at < it.text.length;) {
    const end = Math.min(it.text.length, at + 1 + it.draw.below(it.draw.pick([2, 6, 60, 2000])));
    const cut = stream.cut;
    const some = stream.push(it.text.slice(at, end));
    assert.ok(some.every((match) => match.start >= cut), 'a match begins before the cut');
    assert.ok(stream.cut >= cut && stream.cut <= end, 'the cut goes on, within the text');
    found.push(...some);
    at = end;
  }
  found.push(...stream.finish());
  assert.deepStrictEqual(found, matches);
  assert.strictEqual(stream.cut, it.text.length);
}

/** What a Transform makes of a text in pieces of some bytes. */
async function through(draw, transform, bytes) {
  const out = [];
  transform.on('data', (chunk) => out.push(chunk));
  for (let at = 0; at < bytes.length;) {
    const end = at + 1 + draw.below(draw.pick([2, 6, 60, 2000]));
    transform.write(bytes.subarray(at, end));
    at = end;
  }
  transform.end();
  await once(transform, 'end');
  return Buffer.concat(out);
}

const isWhole = (text) => typeof text !== 'string' || !/\p{Surrogate}/u.test(text);
const utf8 = (text) => (typeof text === 'string' ? Buffer.from(text) : text);

/** Transforms: for strings they are those of their UTF-8, whose occurrences are the same. */
async function compareTransforms(it, ac, rules) {
  const { draw, patterns, settings } = it;
  if (![it.text, ...patterns].every(isWhole)) return;
  const text = utf8(it.text);
  const all = occurrences(patterns.map(utf8), text, rules);
  const matches = walk(all, settings.kind);
  const made = patterns.map((_, i) => (it.areText ? `<${i}\u0416>` : Uint8Array.of(i, 0xff)));
  const wanted = replaced(text, matches, (found) => utf8(made[found.pattern]));
  same(await through(draw, ac.replaceStream(made), text), wanted);
  same(await through(draw, ac.replaceStream((found) => made[found.pattern]), text), wanted);
  if (settings.kind !== 'standard') return;
  same(await through(draw, ac.maskStream(0x23), text), masked(text, all, 0x23));
  const words = walk(wholeWords(all, text), 'leftmost-longest');
  const options = { words: true, kind: 'leftmost-longest' };
  same(await through(draw, ac.replaceStream(made, options), text), replaced(text, words, (found) => utf8(made[found.pattern])));
}

async function compareLater(it, ac, matches) {
  assert.deepStrictEqual(await ac.findAllAsync(it.text), matches);
  const made = it.patterns.map((_, i) => (it.areText ? `<${i}\u00e9>` : Uint8Array.of(i)));
  same(await ac.replaceAsync(it.text, made), replaced(it.text, matches, (found) => made[found.pattern]));
}

async function compare(seed) {
  const it = caseOf(seed);
  const { text, patterns, settings } = it;
  const rules = { fold: settings.fold, pairs: pairsOf(settings) };
  const ac = new Automaton(patterns, settings);
  const all = occurrences(patterns, text, rules);
  const matches = compareWalks(it, ac, all, rules);
  compareReplaced(it, ac, matches, undefined);
  const hasEmpty = patterns.some((pattern) => pattern.length === 0);
  if (settings.kind === 'standard') {
    const star = it.areText ? it.draw.pick(['*', '\u00e9', '\u0416']) : it.draw.below(256);
    same(ac.mask(text, star), masked(text, all, typeof star === 'string' ? star.charCodeAt(0) : star));
    if (!hasEmpty) compareWords(it, ac, all);
  }
  if (!hasEmpty) comparePieces(it, ac, matches, undefined);
  if (!hasEmpty && seed % 8 === 0) await compareTransforms(it, ac, rules);
  if (seed % 8 === 1) await compareLater(it, ac, matches);
  return matches.length;
}

test(`${CASES} random cases`, async () => {
  let matches = 0;
  for (let seed = SEED; seed < SEED + CASES; seed++) {
    try {
      matches += await compare(seed);
    } catch (error) {
      error.message = `case ${seed}: ${error.message}`;
      throw error;
    }
  }
  assert.ok(CASES < 100 || matches > CASES, `there were ${matches} matches alone`);
});
