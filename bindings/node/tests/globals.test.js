'use strict';

// Names of the language that a program has put something else in the place of: an error at worst, and never the end of the process.

const assert = require('node:assert');
const { spawnSync } = require('node:child_process');
const { test } = require('node:test');

const CALLS = `() => {
  const text = 'a'.repeat(100000);
  const ac = new Automaton(['a']);
  const of = new Automaton([Buffer.from('a')]);
  const bytes = Buffer.from(text);
  const calls = [
    () => ac.findAllFlat(text).length, () => ac.findAll(text).length, () => ac.replace(text, 'b').length, () => [...ac.matches(text)].length,
    () => ac.findAllFlat('a').length, () => ac.mask(text).length, () => ac.engine.length, () => of.replace(bytes, [bytes.subarray(1, 2)]).length,
    () => of.mask(bytes).length, () => ac.stream().push(text).length,
  ];
  return calls.map(tried);
}`;

const TRIED = `function tried(call) {
  try {
    return call();
  } catch (error) {
    return error.code ?? error.name;
  }
}`;

/** What the calls give in a process of their own, where something was replaced before the package was loaded, or after. */
function results(before, after) {
  const script = `${before}; const { Automaton } = require('dadofennel'); ${after}; ${TRIED}; console.log(JSON.stringify(tried(${CALLS})));`;
  const done = spawnSync(process.execPath, ['-e', script], { encoding: 'utf8' });
  assert.deepStrictEqual([done.status, done.signal, done.stderr], [0, null, ''], `${before}; ${after}`);
  return JSON.parse(done.stdout);
}

const WANTED = [300000, 100000, 100000, 100000, 3, 100000, 3, 100000, 100000, 100000];

const REPLACED = [
  'globalThis.Uint32Array = Uint8Array',
  'globalThis.Float64Array = Uint8Array',
  'globalThis.Uint32Array = Float64Array',
  'globalThis.Uint32Array = function () { return {}; }',
  'Buffer.allocUnsafe = (n) => new Uint8Array(2)',
  'Buffer.allocUnsafe = (n) => new Uint16Array(n)',
  'Uint32Array.prototype.slice = function () { return structuredClone(this.buffer, { transfer: [this.buffer] }); }',
];

test('replaced after the package was loaded, they change nothing', () => {
  assert.deepStrictEqual(results('', ''), WANTED);
  for (const it of REPLACED) assert.deepStrictEqual(results('', it), WANTED, it);
});

test('replaced before it, they are an error at worst', () => {
  const smaller = results('globalThis.Uint32Array = Uint8Array', '');
  assert.strictEqual(smaller[0], 'DADO_BAD_ARGUMENT');
  for (const it of REPLACED.slice(1, 4)) results(it, '');
});
