'use strict';

// Run by `refusals`, with the folder of a package whose addon can be refused memory.

const assert = require('node:assert');
const path = require('node:path');
const { setImmediate: tick } = require('node:timers/promises');
const v8 = require('node:v8');
const vm = require('node:vm');

const folder = process.argv[2];
const { Automaton } = require(folder);
const { native } = require(path.join(folder, 'lib/native'));

const FAR = Array.from({ length: 200 }, (_, i) => String.fromCharCode(0x4e00 + i));
const LONG = 'a fox, '.repeat(1000);
const WIDE = '\u0416 fox, '.repeat(1000);
const isMemory = (error) => error instanceof Error && error.code === 'DADO_NO_MEMORY';

v8.setFlagsFromString('--expose-gc');
const collect = vm.runInNewContext('gc');

/** How many blocks are held, once all is freed that was let go. */
async function held() {
  for (let before = -1; ; ) {
    collect();
    await tick();
    await tick();
    if (native.held() === before) return before;
    before = native.held();
  }
}

/** Calls with memory for no request, for one, two and so on, until the call succeeds, and returns how many it takes. */
let refused = 0;
async function each(name, call, wanted) {
  const before = await held();
  let n = 0;
  let result = await tried(n, call);
  for (; result instanceof Error; n++, refused++) {
    assert.ok(isMemory(result), `${name}, ${n}: ${result.stack}`);
    result = await tried(n + 1, call);
  }
  assert.deepStrictEqual(wanted(result), wanted(call()), name);
  result = undefined;
  assert.ok(await held() <= before, `${name}: something is held`);
  return n;
}

/** The result of a call, or its error, that has memory for so many requests. */
async function tried(n, call) {
  native.refuseAfter(n);
  try {
    return await call();
  } catch (error) {
    return error;
  } finally {
    native.refuseAfter(-1);
  }
}

/** The same of a call that returns a promise. */
async function eachLater(name, call) {
  const wanted = await call();
  await each(name, call, (it) => (it instanceof Promise ? wanted : it));
}

const same = (it) => it;

async function builds() {
  const memory = (it) => it.memory;
  assert.ok(await each('build of strings', () => new Automaton(['fox', '\u00e9']), memory) > 5);
  assert.ok(await each('build of bytes', () => new Automaton([Buffer.from('fox')], { engine: 'dfa' }), memory) > 5);
  assert.ok(await each('build of many units', () => new Automaton(FAR), memory) > 5);
}

async function calls(ac, count) {
  const by = ['-', ...new Array(count - 1).fill('\u0416')];
  for (const text of [LONG, WIDE]) {
    await each('all', () => ac.findAll(text), same);
    await each('walk', () => [...ac.matches(text)], same);
    await each('find', () => ac.find(text), same);
    await each('replace', () => ac.replace(text, by), same);
    await each('words', () => ac.replace(text, by, { words: true }), same);
    await each('one for all', () => ac.replace(text, '\u00e9'), same);
    await each('mask', () => ac.mask(text), same);
    await each('mask of words', () => ac.mask(text, '*', { words: true }), same);
    await eachLater('later', () => ac.findAllAsync(text));
    await eachLater('replaced later', () => ac.replaceAsync(text, '\u00e9'));
  }
  await each('stream', () => {
    const stream = ac.stream();
    return stream.push(LONG).concat(stream.push(WIDE), stream.finish());
  }, same);
}

/** What a transform makes of bytes, or the error that it ends with. */
function through(transform) {
  transform.on('error', () => {});
  transform.end(Buffer.from(LONG));
  if (transform.errored) throw transform.errored;
  return transform.read();
}

async function bytes() {
  const ac = new Automaton([Buffer.from('fox')]);
  await each('replacer', () => through(ac.replaceStream(Buffer.from('sloth'))), same);
  await each('masker', () => through(ac.maskStream()), same);
  await each('replace', () => ac.replace(Buffer.from(LONG), Buffer.from('-')), same);
  await each('words', () => ac.replace(Buffer.from(LONG), Buffer.from('-'), { words: true }), same);
  await each('mask', () => ac.mask(Buffer.from(LONG), '*', { words: true }), same);
  await eachLater('later', () => ac.findAllAsync(Buffer.from(LONG)));
}

async function run() {
  await builds();
  await calls(new Automaton(['fox']), 1);
  await calls(new Automaton(['fox', '\u0416']), 2);
  await calls(new Automaton(['fox', ...FAR]), 201);
  await bytes();
  assert.ok(refused > 200, `${refused} requests alone were refused`);
  console.log(`${refused} requests for memory were refused, and each was an error`);
}

run();
