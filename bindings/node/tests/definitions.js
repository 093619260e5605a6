'use strict';

// What a match, a word, a replacement and a mask are, by every place and every pattern. Slow, and without an automaton.

/** The units of a string, or the bytes of bytes. */
const unitsOf = (text) => (typeof text === 'string' ? Array.from({ length: text.length }, (_, i) => text.charCodeAt(i)) : [...text]);

const isLetter = (unit) => (unit >= 0x41 && unit <= 0x5a) || (unit >= 0x61 && unit <= 0x7a);
const isWordUnit = (unit) => isLetter(unit) || (unit >= 0x30 && unit <= 0x39) || unit === 0x5f || unit >= 0x80;

function alike(a, b, fold, pairs) {
  if (a === b) return true;
  if (fold && isLetter(a) && (a ^ 0x20) === b) return true;
  return pairs.some(([one, other]) => (a === one && b === other) || (a === other && b === one));
}

/** All occurrences, in the order of end, start and number. */
function occurrences(patterns, text, { fold = false, pairs = [], start = 0, end = text.length } = {}) {
  const units = unitsOf(text);
  const found = [];
  patterns.map(unitsOf).forEach((wanted, pattern) => {
    for (let at = start; at + wanted.length <= end; at++) {
      if (wanted.every((unit, i) => alike(units[at + i], unit, fold, pairs))) {
        found.push({ pattern, start: at, end: at + wanted.length });
      }
    }
  });
  return found.sort((a, b) => a.end - b.end || a.start - b.start || a.pattern - b.pattern);
}

const before = {
  standard: (a, b) => a.end - b.end || a.start - b.start || a.pattern - b.pattern,
  'leftmost-first': (a, b) => a.start - b.start || a.pattern - b.pattern,
  'leftmost-longest': (a, b) => a.start - b.start || b.end - a.end || a.pattern - b.pattern,
};

/** The best occurrence that begins at a place or after it; with `anchored` at it. They are in the order of the kind. */
function first(ordered, from, anchored) {
  return ordered.find((it) => (anchored ? it.start === from : it.start >= from)) ?? null;
}

const best = (all, kind, from, anchored) => first([...all].sort(before[kind]), from, anchored);

/** The matches of a walk. An empty one where the last one ended is left out, and the search goes on one further. */
function walk(all, kind, { start = 0, anchored = false } = {}) {
  const matches = [];
  let ordered = [...all].sort(before[kind]);
  let from = start;
  let last = -1;
  for (;;) {
    let it = first(ordered, from, anchored);
    if (it !== null && it.start === it.end && it.end === last) {
      from += 1;
      it = first(ordered, from, anchored);
    }
    if (it === null) return matches;
    matches.push(it);
    from = last = it.end;
    if (!anchored) ordered = ordered.slice(ordered.indexOf(it)); // those in front of it begin before it, so no later search takes them
  }
}

/** Those of some occurrences that have no word unit beside them. */
function wholeWords(all, text) {
  const units = unitsOf(text);
  return all.filter((it) => !(it.start > 0 && isWordUnit(units[it.start - 1])) && !(it.end < units.length && isWordUnit(units[it.end])));
}

/** The text with these matches replaced, as units. */
function replaced(text, matches, replacementOf) {
  const units = unitsOf(text);
  const out = [];
  let at = 0;
  for (const it of matches) {
    out.push(...units.slice(at, it.start), ...unitsOf(replacementOf(it)));
    at = it.end;
  }
  return out.concat(units.slice(at));
}

/** The text with a star for each unit in one of these occurrences, as units. */
function masked(text, all, star) {
  const units = unitsOf(text);
  for (const it of all) units.fill(star, it.start, it.end);
  return units;
}

module.exports = { unitsOf, occurrences, best, walk, wholeWords, replaced, masked };
