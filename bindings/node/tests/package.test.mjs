// The package as it is installed: imported by name, with types for all that it has.

import assert from 'node:assert';
import fs from 'node:fs';
import { createRequire } from 'node:module';
import { test } from 'node:test';
import { Automaton, version } from 'dadofennel';

const require = createRequire(import.meta.url);

test('import and require give the same', () => {
  assert.strictEqual(require('dadofennel').Automaton, Automaton);
  assert.strictEqual(new Automaton(['fox']).replace('a fox', ['sloth']), 'a sloth');
});

test('nothing else is exported', () => {
  assert.deepStrictEqual(Object.keys(require('dadofennel')).sort(), ['Automaton', 'version']);
  assert.throws(() => require('dadofennel/lib/native'), { code: 'ERR_PACKAGE_PATH_NOT_EXPORTED' });
});

test('the version is that of the library', () => {
  assert.strictEqual(require('dadofennel/package.json').version.match(/^\d+\.\d+\.\d+/)[0], version);
});

test('the types name each member, and no other', () => {
  const types = fs.readFileSync(require.resolve('dadofennel').replace(/index\.js$/, 'index.d.ts'), 'utf8');
  const inClass = types.slice(types.indexOf('export class Automaton'));
  const named = [...inClass.matchAll(/^  (?:readonly )?(\w+)[(:]/gm)].map((it) => it[1]).sort();
  assert.deepStrictEqual(named, Object.getOwnPropertyNames(Automaton.prototype).sort());
});
