'use strict';

// Text that comes in pieces.

const { Buffer } = require('node:buffer');
const { Transform } = require('node:stream');
const { StringDecoder } = require('node:string_decoder');
const { native, matchesOf } = require('./native');
const { splicedPieces } = require('./replacements');

/** A search of a text that is pushed piece by piece. */
class Stream {
  #pieces;

  constructor(searcher, how) {
    this.#pieces = native.pieces(searcher, how);
  }

  push(piece) {
    return matchesOf(native.piecesPush(this.#pieces, piece));
  }

  finish() {
    return matchesOf(native.piecesFinish(this.#pieces));
  }

  get cut() {
    return native.piecesCut(this.#pieces);
  }
}

/** A Transform of bytes: what `push` and `finish` return is handed on. */
class Changed extends Transform {
  #push;
  #finish;

  constructor(push, finish) {
    super();
    this.#push = push;
    this.#finish = finish;
  }

  _transform(chunk, encoding, done) {
    this.#hand(() => this.#push(chunk), done);
  }

  _flush(done) {
    this.#hand(this.#finish, done);
  }

  #hand(call, done) {
    let out;
    try {
      out = call();
    } catch (error) {
      done(error);
      return;
    }
    if (out.length === 0) done();
    else done(null, out);
  }
}

/** Replaces by the library's own replacer. */
function replacing(searcher, replacements) {
  const replacer = native.replacer(searcher, replacements);
  return new Changed((chunk) => native.replacerPush(replacer, chunk), () => native.replacerFinish(replacer));
}

function masking(searcher, how, star) {
  const masker = native.masker(searcher, how, star);
  return new Changed((chunk) => native.maskerPush(masker, chunk), () => native.maskerFinish(masker));
}

/** Replaces what a stream finds: each match by `of(match)`. What isn't decided yet is kept. */
function splicing(searcher, how, of) {
  const stream = new Stream(searcher, how);
  let held = Buffer.alloc(0);
  let from = 0;
  const decided = (matches, stop) => {
    const [pieces, at] = splicedPieces(held, matches, of, from);
    const cut = Math.max(at, stop - from);
    pieces.push(held.subarray(at, cut));
    const out = Buffer.concat(pieces);
    held = Buffer.from(held.subarray(cut)); // the writer may use its chunk again
    from += cut;
    return out;
  };
  const push = (chunk) => {
    held = held.length === 0 ? chunk : Buffer.concat([held, chunk]);
    return decided(stream.push(chunk), stream.cut);
  };
  return new Changed(push, () => decided(stream.finish(), from + held.length));
}

/** The matches of what an iterable has, each as soon as it is decided. Bytes are decoded, where strings are searched. */
async function* found(stream, source, isText) {
  const decoder = isText ? new StringDecoder('utf8') : undefined;
  for await (const chunk of source) {
    if (decoder === undefined) yield* stream.push(chunk);
    else yield* stream.push(typeof chunk === 'string' ? decoder.end() + chunk : decoder.write(chunk));
  }
  if (decoder !== undefined) yield* stream.push(decoder.end());
  yield* stream.finish();
}

module.exports = { Stream, found, masking, replacing, splicing };
