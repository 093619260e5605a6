'use strict';

const { native, matchesOf } = require('./native');

const DONE = Object.freeze({ done: true, value: undefined });

/** The matches of a long text one after another: some hundred are found at a time. */
class Walk {
  #walk;
  #text;
  #found = [];
  #at = 0;

  constructor(walk, text) {
    this.#walk = walk;
    this.#text = text;
  }

  next() {
    if (this.#at === this.#found.length && !this.#more()) return { ...DONE };
    return { done: false, value: this.#found[this.#at++] };
  }

  /** Ends the search, and lets go of the text: a loop that is left calls it. */
  return(value) {
    if (this.#walk !== undefined) native.walkEnd(this.#walk);
    this.#walk = this.#text = undefined;
    this.#found = [];
    this.#at = 0;
    return { done: true, value };
  }

  [Symbol.iterator]() {
    return this;
  }

  #more() {
    if (this.#walk === undefined) return false;
    this.#found = matchesOf(native.walkNext(this.#walk, this.#text));
    this.#at = 0;
    if (this.#found.length === 0) this.return();
    return this.#found.length > 0;
  }
}

module.exports = { Walk };
