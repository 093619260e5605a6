'use strict';

// The addon, and the room in which it hands over matches.

const { Buffer } = require('node:buffer');

/** How many matches there is room for; native/native.h has the same number. */
const ROOM = 256;
const HEAD = 16;

// What arrays are made of is taken here, so that a program which sets these names later changes nothing.
const { ArrayBuffer, Float64Array, Uint32Array } = globalThis;
const { allocUnsafe } = Buffer;

const room = new ArrayBuffer(HEAD + ROOM * 3 * 8);
const ints = new Uint32Array(room);
const doubles = new Float64Array(room);

function load() {
  const name = `${process.platform}-${process.arch}`;
  try {
    return require(`../prebuilds/${name}/dadofennel.node`);
  } catch (error) {
    if (error.code !== 'MODULE_NOT_FOUND') throw error;
    throw new Error(`dadofennel: there is no addon for ${name}; bindings/node/build PREFIX compiles it`, { cause: error });
  }
}

/** Makes the arrays that the addon fills, so that out of memory is an exception. The addon looks at what it gets. */
function allocate(type, count) {
  switch (type) {
    case 0: return allocUnsafe(count);
    case 1: return new Uint32Array(count);
    default: return new Float64Array(count);
  }
}

const native = load();
native.begin(room, allocate);

function objects(flat, at, count) {
  const found = new Array(count);
  for (let i = 0; i < count; i++, at += 3) found[i] = { pattern: flat[at], start: flat[at + 1], end: flat[at + 2] };
  return found;
}

// A result of the addon is the number of matches in the room, as integers or doubles, or an array of matches.

/** The matches of a result, an object each. */
function matchesOf(result) {
  if (typeof result !== 'number') return objects(result, 0, result.length / 3);
  return ints[1] === 0 ? objects(ints, HEAD / 4, result) : objects(doubles, HEAD / 8, result);
}

/** The matches of a result in a row, three numbers each. No method of an array is called, which could be given the room. */
function flatOf(result) {
  if (typeof result !== 'number') return result;
  const [from, at, flat] = ints[1] === 0 ? [ints, HEAD / 4, new Uint32Array(3 * result)] : [doubles, HEAD / 8, new Float64Array(3 * result)];
  for (let i = 0; i < 3 * result; i++) flat[i] = from[at + i];
  return flat;
}

/** The first match of a result, or null. */
function firstOf(result) {
  if (result === 0) return null;
  const [flat, at] = ints[1] === 0 ? [ints, HEAD / 4] : [doubles, HEAD / 8];
  return { pattern: flat[at], start: flat[at + 1], end: flat[at + 2] };
}

module.exports = { native, matchesOf, flatOf, firstOf };
