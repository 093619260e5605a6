'use strict';

// Text in pieces: cut at every place, and through Transforms.

const assert = require('node:assert');
const fs = require('node:fs');
const os = require('node:os');
const path = require('node:path');
const { Readable } = require('node:stream');
const { finished, pipeline } = require('node:stream/promises');
const { test } = require('node:test');
const { Automaton } = require('dadofennel');

const triples = (matches) => Array.from(matches, ({ pattern, start, end }) => [pattern, start, end]);
const FAR = Array.from({ length: 200 }, (_, i) => String.fromCharCode(0x4e00 + i));

/** What a transform makes of these chunks. */
async function through(transform, chunks) {
  const out = [];
  await pipeline(Readable.from(chunks), transform, async (made) => {
    for await (const chunk of made) out.push(chunk);
  });
  return Buffer.concat(out);
}

test('each push returns what is decided', () => {
  const stream = new Automaton(['app', 'append', 'appendage'], { kind: 'leftmost-longest' }).stream();
  assert.deepStrictEqual(stream.push('an app'), []);
  assert.strictEqual(stream.cut, 0);
  assert.deepStrictEqual(triples(stream.push('end to the app')), [[1, 3, 9]]);
  assert.deepStrictEqual(triples(stream.finish()), [[0, 17, 20]]);
  assert.strictEqual(stream.cut, 20);
});

test('a text cut at every place, in two and in three', () => {
  const text = 'a\u00e9\u{1f600}b\u0416a\u00e9\u{1f601}aab';
  for (const kind of ['standard', 'leftmost-first', 'leftmost-longest']) {
    for (const more of [[], FAR]) {
      const ac = new Automaton(['a', 'a\u00e9', '\u00e9\u{1f600}b', '\ude01a', '\u0416', ...more], { kind });
      const wanted = ac.findAll(text);
      assert.ok(wanted.length >= 4);
      for (let one = 0; one <= text.length; one++) {
        for (let other = one; other <= text.length; other++) {
          const stream = ac.stream();
          const found = [text.slice(0, one), text.slice(one, other), text.slice(other)].flatMap((piece) => stream.push(piece));
          assert.deepStrictEqual(found.concat(stream.finish()), wanted);
        }
      }
    }
  }
});

test('whole words in pieces', () => {
  const stream = new Automaton(['new', 'new york']).stream({ words: true, kind: 'leftmost-longest' });
  const found = [...'new yorker, new york'].flatMap((unit) => stream.push(unit));
  assert.deepStrictEqual(triples(found.concat(stream.finish())), [[0, 0, 3], [1, 12, 20]]);
});

test('all whole words in pieces, wherever the text is cut', () => {
  const text = 'new york new yorker \u4e00 new york';
  for (const more of [[], FAR]) {
    const ac = new Automaton(['new', 'york', 'new york', ...more]);
    const wanted = ac.overlapping(text, { words: true });
    assert.strictEqual(wanted.length, more.length === 0 ? 7 : 8);
    for (let one = 0; one <= text.length; one++) {
      const stream = ac.stream({ words: true, overlapping: true });
      const found = [text.slice(0, one), text.slice(one)].flatMap((piece) => stream.push(piece));
      assert.deepStrictEqual(found.concat(stream.finish()), wanted);
      const single = ac.stream({ words: true, overlapping: true });
      assert.deepStrictEqual([...text].flatMap((unit) => single.push(unit)).concat(single.finish()), wanted);
    }
  }
});

test('a long word in pieces, with units of several bytes', () => {
  const long = `${'\u4e00'.repeat(30000)} ${'a'.repeat(70000)}`;
  const ac = new Automaton([long, 'a'.repeat(70000), ...FAR.slice(1)]);
  const text = `${long} ${FAR[7]} ${long}`;
  const stream = ac.stream({ words: true, overlapping: true });
  const found = [];
  for (let at = 0; at < text.length; at += 997) found.push(...stream.push(text.slice(at, at + 997)));
  assert.deepStrictEqual(found.concat(stream.finish()), ac.overlapping(text, { words: true }));
});

test('more matches in one piece than there is room for', () => {
  const stream = new Automaton(['a']).stream();
  assert.strictEqual(stream.push('ab'.repeat(50000)).length, 50000);
  assert.deepStrictEqual(triples(stream.push('a')), [[0, 100000, 100001]]);
  const wide = new Automaton(['\u4e00', ...FAR.slice(1)]).stream();
  const found = wide.push('\u4e00\u00e9'.repeat(50000));
  assert.deepStrictEqual(triples(found.slice(-1)), [[0, 99998, 99999]]);
  assert.strictEqual(wide.cut, 100000);
});

test('a Transform that replaces', async () => {
  const text = 'The quick brown fox. \u{1f98a}\u00e9 fox';
  const ac = new Automaton(['fox', 'brown', 'quick', '\u{1f98a}\u00e9']);
  const by = ['sloth', 'grey', 'slow', '\u{1f9a5}'];
  const wanted = 'The slow grey sloth. \u{1f9a5} sloth';
  const bytes = Buffer.from(text);
  for (let at = 0; at <= bytes.length; at++) {
    const chunks = [bytes.subarray(0, at), bytes.subarray(at)];
    assert.strictEqual((await through(ac.replaceStream(by), chunks)).toString(), wanted);
    assert.strictEqual((await through(ac.replaceStream((match) => by[match.pattern]), chunks)).toString(), wanted);
    assert.strictEqual((await through(ac.replaceStream(by, { words: true }), chunks)).toString(), wanted.replace('\u{1f9a5}', '\u{1f98a}\u00e9').replace('\u{1f98a}\u00e9', '\u{1f9a5}'));
  }
  assert.strictEqual((await through(ac.replaceStream(by), [text])).toString(), wanted);
  assert.strictEqual((await through(ac.replaceStream({ fox: 'a', brown: 'b', quick: 'c', '\u{1f98a}\u00e9': 'd' }), [text])).toString(), 'The c b a. d a');
  assert.strictEqual((await through(ac.replaceStream(by), [])).toString(), '');
});

test('a function is given places in all that was written', async () => {
  const ac = new Automaton([Buffer.from('ab')]);
  const found = [];
  const transform = ac.replaceStream((match) => {
    found.push(match);
    return Buffer.alloc(0);
  });
  assert.strictEqual((await through(transform, [Buffer.from('xa'), Buffer.from('b-'), Buffer.from('ab')])).toString(), 'x-');
  assert.deepStrictEqual(triples(found), [[0, 1, 3], [0, 4, 6]]);
});

test('a chunk may be written to after it was taken', async () => {
  const ac = new Automaton(['fox', 'foxglove'], { kind: 'leftmost-longest' });
  for (const transform of [ac.replaceStream('-'), ac.replaceStream(() => '-')]) {
    const out = [];
    transform.on('data', (made) => out.push(Buffer.from(made)));
    for (const part of ['a fo', 'x, a', ' fo', 'g']) {
      const chunk = Buffer.from(part);
      await new Promise((done) => transform.write(chunk, done));
      chunk.fill('#');
    }
    transform.end();
    await finished(transform);
    assert.strictEqual(Buffer.concat(out).toString(), 'a -, a fog');
  }
});

test('an error of a function ends the stream', async () => {
  const ac = new Automaton(['a']);
  await assert.rejects(through(ac.replaceStream(() => { throw new Error('of the caller'); }), ['a']), /of the caller/);
  await assert.rejects(through(ac.replaceStream(() => 7), ['a']), TypeError);
});

test('a Transform that masks', async () => {
  const ac = new Automaton(['hunter2', '\u00e9']);
  const bytes = Buffer.from('login hunter2, \u00e9');
  for (let at = 0; at <= bytes.length; at++) {
    assert.strictEqual((await through(ac.maskStream(), [bytes.subarray(0, at), bytes.subarray(at)])).toString(), 'login *******, **');
  }
  assert.strictEqual((await through(ac.maskStream('#'), ['hunter2'])).toString(), '#######');
});

test('a Transform that masks whole words', async () => {
  const bytes = Buffer.from('renewal new, new\u00e9 new');
  for (const of of [new Automaton(['new']), new Automaton([Buffer.from('new')])]) {
    for (let at = 0; at <= bytes.length; at++) {
      const made = await through(of.maskStream('*', { words: true }), [bytes.subarray(0, at), bytes.subarray(at)]);
      assert.strictEqual(made.toString(), 'renewal ***, new\u00e9 ***');
    }
  }
});

test('the matches of a readable stream', async () => {
  const ac = new Automaton(['fox', '\u{1f98a}']);
  const text = 'fox \u{1f98a} fox';
  const wanted = [[0, 0, 3], [1, 4, 6], [0, 7, 10]];
  const bytes = Buffer.from(text);
  for (const chunks of [[text], [...text], Array.from(bytes, (byte) => Uint8Array.of(byte)), [bytes]]) {
    const found = [];
    for await (const match of ac.findStream(Readable.from(chunks, { objectMode: true }))) found.push(match);
    assert.deepStrictEqual(triples(found), wanted);
  }
  const found = [];
  for await (const match of new Automaton([Buffer.from('fox')]).findStream([bytes.subarray(0, 2), bytes.subarray(2)])) found.push(match);
  assert.deepStrictEqual(triples(found), [[0, 0, 3], [0, 9, 12]]);
  const words = [];
  for await (const match of ac.findStream(['foxes fo', 'x'], { words: true })) words.push(match);
  assert.deepStrictEqual(triples(words), [[0, 6, 9]]);
});

test('a file', async () => {
  const folder = fs.mkdtempSync(path.join(os.tmpdir(), 'dadofennel-'));
  try {
    const text = 'The quick fox in the foxglove.\n'.repeat(40000);
    fs.writeFileSync(`${folder}/in`, text);
    const ac = new Automaton(['fox', 'foxglove'], { kind: 'leftmost-longest' });
    await pipeline(fs.createReadStream(`${folder}/in`), ac.replaceStream(['sloth', 'rose']), fs.createWriteStream(`${folder}/out`));
    assert.strictEqual(fs.readFileSync(`${folder}/out`, 'utf8'), 'The quick sloth in the rose.\n'.repeat(40000));
    let count = 0;
    for await (const match of ac.findStream(fs.createReadStream(`${folder}/in`))) count += match.pattern;
    assert.strictEqual(count, 40000);
  } finally {
    fs.rmSync(folder, { recursive: true });
  }
});

/** Places that pass 2^32: 4 GiB are pushed, so it takes seconds, and is asked for by LARGE. */
test('more than 4 GiB in pieces', { skip: !process.env.LARGE }, () => {
  const stream = new Automaton([Buffer.from('needle')]).stream();
  const piece = Buffer.alloc(1 << 26, 'x');
  piece.write('needle', 100);
  for (let i = 0; i < 65; i++) {
    const start = i * piece.length + 100;
    assert.deepStrictEqual(stream.push(piece), [{ pattern: 0, start, end: start + 6 }]);
  }
  assert.strictEqual(stream.cut > 2 ** 32, true);
  const wide = new Automaton(FAR).stream();
  assert.deepStrictEqual(wide.push('\u4e00x\u4e00'), [{ pattern: 0, start: 0, end: 1 }, { pattern: 0, start: 2, end: 3 }]);
});
