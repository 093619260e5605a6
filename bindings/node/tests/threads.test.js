'use strict';

// Other threads: promises, workers, and what is freed when.

const assert = require('node:assert');
const { once } = require('node:events');
const { setTimeout: wait } = require('node:timers/promises');
const { test } = require('node:test');
const v8 = require('node:v8');
const vm = require('node:vm');
const { Worker } = require('node:worker_threads');
const { Automaton } = require('dadofennel');

v8.setFlagsFromString('--expose-gc');
const collect = vm.runInNewContext('gc');
const triples = (matches) => Array.from(matches, ({ pattern, start, end }) => [pattern, start, end]);

test('promises', async () => {
  const ac = new Automaton(['fox', '\u00e9']);
  const text = 'a fox, \u00e9, '.repeat(1000);
  const wanted = ac.findAll(text);
  assert.strictEqual(wanted.length, 2000);
  assert.deepStrictEqual(await ac.findAllAsync(text), wanted);
  assert.deepStrictEqual(await ac.findAllFlatAsync(text), ac.findAllFlat(text));
  assert.deepStrictEqual(triples(await ac.findAllAsync(text, { start: 3, end: 20 })), [[1, 7, 8], [0, 12, 15], [1, 17, 18]]);
  assert.strictEqual(await ac.replaceAsync(text, ['b', 'c']), 'a b, c, '.repeat(1000));
  assert.strictEqual(await ac.replaceAsync(text, ['\u0416', 'c']), 'a \u0416, c, '.repeat(1000));
  assert.strictEqual(await ac.replaceAsync(text, (match) => '01'[match.pattern]), 'a 0, 1, '.repeat(1000));
  const of = new Automaton([Buffer.from('fox')]);
  assert.deepStrictEqual(triples(await of.findAllAsync(Buffer.from('a fox'))), [[0, 2, 5]]);
  assert.strictEqual((await of.replaceAsync(Buffer.from('a fox'), [Buffer.from('sloth')])).toString(), 'a sloth');
  assert.strictEqual(await ac.replaceAsync('new fox', '-', { words: true }), 'new -');
  assert.deepStrictEqual(await ac.findAllAsync('', {}), []);
});

test('a promise that fails', async () => {
  const leftmost = new Automaton(['a'], { kind: 'leftmost-first' });
  await assert.rejects(leftmost.findAllAsync('a', { overlapping: true }), { code: 'DADO_NOT_STANDARD', name: 'Error' });
  await assert.rejects(leftmost.findAllAsync(7), { code: 'DADO_BAD_ARGUMENT', name: 'TypeError' });
  await assert.rejects(leftmost.findAllAsync('a', { start: 2 }), { code: 'DADO_BAD_SPAN', name: 'RangeError' });
  await assert.rejects(leftmost.replaceAsync('a', ['b', 'c']), { code: 'DADO_WRONG_COUNT', name: 'RangeError' });
  await assert.rejects(leftmost.replaceAsync('a', 'b', { words: true }), { code: 'DADO_NOT_STANDARD', name: 'Error' });
  await assert.rejects(leftmost.replaceAsync('a'.repeat(3000), 'x'.repeat(300000)), { code: 'ERR_STRING_TOO_LONG', name: 'RangeError' });
});

test('many promises at once, whose automata and texts are let go', async () => {
  const all = [];
  for (let i = 0; i < 200; i++) {
    const ac = new Automaton([Buffer.from(`${i}.`)]);
    all.push(ac.findAllAsync(Buffer.from(`x${i}.`.repeat(500))), ac.replaceAsync(Buffer.from(`${i}.`), [Buffer.from('-')]));
    if (i % 50 === 0) collect();
  }
  collect();
  const results = await Promise.all(all);
  for (let i = 0; i < 200; i++) {
    assert.strictEqual(results[2 * i].length, 500);
    assert.strictEqual(results[2 * i + 1].toString(), '-');
  }
});

test('what is let go is freed', async () => {
  const words = Array.from({ length: 2000 }, (_, i) => `word number ${i * i}`);
  const text = 'x'.repeat(100000);
  const round = async () => {
    for (let i = 0; i < 20; i++) {
      const ac = new Automaton(words, { engine: 'dfa' });
      ac.matches(text).next();
      ac.stream().push(text);
      ac.replaceStream(words).write(text);
    }
    collect();
    await wait(1);
    collect();
    return process.memoryUsage().rss;
  };
  for (let i = 0; i < 3; i++) await round();
  const before = await round();
  for (let i = 0; i < 10; i++) await round();
  const size = new Automaton(words, { engine: 'dfa' }).memory;
  assert.ok(size > 5e5);
  const grown = await round() - before;
  assert.ok(grown < 40 * size, `${grown} bytes more after 200 automata of ${size}`);
});

test('bytes that are written to, resized or handed on while they are searched', async () => {
  const of = new Automaton([Buffer.from('b')]);
  const size = 1 << 22;
  const filled = (buffer) => new Uint8Array(buffer).fill(0x61, 0, size - 1).fill(0x62, size - 1);
  const handedOn = ({ buffer }) => new Uint8Array(structuredClone(buffer, { transfer: [buffer] })).fill(0x62);
  const ways = [[new ArrayBuffer(size), (text) => text.fill(0x62)], [new ArrayBuffer(size), handedOn]];
  const growing = new ArrayBuffer(size, { maxByteLength: 2 * size });
  if (growing.resizable) ways.push([growing, ({ buffer }) => buffer.resize(0)]);
  for (const [buffer, change] of ways) {
    const busy = Array.from({ length: 8 }, () => of.findAllAsync(filled(new ArrayBuffer(size)))); // so the pool has work before
    const text = filled(buffer);
    const calls = [of.findAllFlatAsync(text), of.replaceAsync(text, [Buffer.from('c')]), of.replaceAsync(text, () => Buffer.from('c'))];
    change(text);
    const [flat, replaced, byFunction] = await Promise.all(calls);
    assert.deepStrictEqual(flat, Uint32Array.of(0, size - 1, size));
    for (const made of [replaced, byFunction]) assert.deepStrictEqual([made.length, made.indexOf('c')], [size, size - 1]);
    await Promise.all(busy);
  }
});

/** How many bytes more the process has, at most, while something is done again and again. */
async function most(again, rests) {
  const before = process.memoryUsage().rss;
  let held = 0;
  for (let i = 0; i < 8000; i++) {
    again();
    if (rests && i % 20 === 0) await new Promise(setImmediate);
    if (i % 500 === 0) held = Math.max(held, process.memoryUsage().rss - before);
  }
  return held;
}

test('what is let go unfinished is collected in time: each holds 64 KiB or more', async () => {
  const ac = new Automaton(['needle', 'hay']);
  const ways = [() => ac.stream().push('hay'), () => ac.maskStream().write('hay'), () => ac.replaceStream('-').write('hay')];
  for (const again of ways) {
    const held = await most(again, true);
    assert.ok(held < 300e6, `${again}: ${held} bytes more`); // of 500 MB
  }
});

test('what is finished is freed at once', async () => {
  const ac = new Automaton(['needle', 'hay']);
  const held = await most(() => {
    const stream = ac.stream();
    assert.deepStrictEqual(stream.push('a hay').concat(stream.finish(), stream.finish()), [{ pattern: 1, start: 2, end: 5 }]);
    assert.strictEqual(stream.cut, 5);
    assert.throws(() => stream.push('a'), { code: 'DADO_FINISHED' });
  }, false);
  assert.ok(held < 150e6, `${held} bytes more`); // of 500 MB
});

/** A worker that runs this function. */
const worker = (run) => new Worker(`(${run})(require(${JSON.stringify(require.resolve('dadofennel'))}), require('node:worker_threads').parentPort)`, { eval: true });

function search({ Automaton }, port) {
  const ac = new Automaton(['fox', 'quick']);
  const text = 'The quick fox. '.repeat(5000);
  let sum = 0;
  for (const match of ac.matches(text)) sum += match.start;
  ac.findAllAsync(text).then((found) => port.postMessage([sum, found.length, ac.replace('fox', '-')]));
}

test('four workers beside the main thread', async () => {
  const wanted = Array.from({ length: 5000 }, (_, i) => 30 * i + 14).reduce((a, b) => a + b);
  const workers = Array.from({ length: 4 }, () => worker(search));
  const results = Promise.all(workers.map((it) => once(it, 'message')));
  const ends = Promise.all(workers.map((it) => once(it, 'exit')));
  const ac = new Automaton(['a']);
  for (let i = 0; i < 100; i++) assert.strictEqual(ac.findAll('ab'.repeat(1000)).length, 1000);
  for (const [result] of await results) assert.deepStrictEqual(result, [wanted, 10000, '-']);
  assert.deepStrictEqual(await ends, [[0], [0], [0], [0]]);
});

function endless({ Automaton }, port) {
  const ac = new Automaton(['a']);
  const text = Buffer.alloc(1 << 22, 'b');
  const of = new Automaton([Buffer.from('bc')]);
  const again = () => Promise.all([of.findAllAsync(text), of.replaceAsync(text, [Buffer.from('')]), ac.findAllAsync('ab'.repeat(100000))]).then(again);
  again();
  again();
  const held = [ac.matches('ab'.repeat(5000)), ac.stream(), ac.replaceStream('b'), ac.maskStream()];
  held[0].next();
  port.postMessage('begun');
}

test('workers that are ended in the middle of a search', async () => {
  for (let i = 0; i < 8; i++) {
    const it = worker(endless);
    await once(it, 'message');
    await wait(i);
    await it.terminate();
  }
  assert.strictEqual(new Automaton(['a']).isMatch('a'), true);
});
