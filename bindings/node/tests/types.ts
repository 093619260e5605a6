// Read by TypeScript's compiler, and never run: what the types allow, and with `@ts-expect-error` what they refuse.

import { Automaton, Kind, Match, version } from 'dadofennel';

const kind: Kind = 'leftmost-longest';
const ofText = new Automaton(['fox', 'brown'], { kind, fold: true, denseDepth: 3 });
const found: Match | null = ofText.find('a fox', { start: 1, words: true });
const text: string = ofText.replace('a fox', { fox: 'sloth', brown: 'grey' });
const other: string = ofText.replace('a fox', (match) => ofText.patterns[match.pattern].toUpperCase());
const read = ofText.replacements(['sloth', 'grey']);
const again: Promise<string> = ofText.replaceAsync('a fox', read, { words: true, kind: 'leftmost-first' });
const places: number[] = [...ofText.matches('a fox')].map((match) => match.start);
const flat: Uint32Array | Float64Array = ofText.findAllFlat('a fox');
const last: Match[] = ofText.stream().push('a fox');

const ofBytes = new Automaton([Uint8Array.of(1, 2)], { pairs: [[1, 2]] });
const made: Buffer = ofBytes.replace(Buffer.from('a'), [Uint8Array.of(3)]);
ofBytes.maskInPlace(made, 0x2a);
ofBytes.replaceStream(Uint8Array.of(3)).pipe(ofBytes.maskStream('*', { words: true }));
ofText.stream({ words: true, overlapping: true });

async function all(source: AsyncIterable<Uint8Array>): Promise<number> {
  let sum = 0;
  for await (const match of ofBytes.findStream(source)) sum += match.end;
  return sum;
}

// @ts-expect-error a text of another type
ofText.find(Buffer.from('fox'));
// @ts-expect-error a text of another type
ofBytes.find('fox');
// @ts-expect-error there is no such kind
new Automaton(['fox'], { kind: 'longest' });
// @ts-expect-error a mask has no kind
ofText.mask('a fox', '*', { words: true, kind: 'standard' });
// @ts-expect-error there is no such setting
new Automaton(['fox'], { caseless: true });
// @ts-expect-error replacements of another type
ofText.replace('a fox', [Buffer.from('sloth'), Buffer.from('grey')]);
// @ts-expect-error bytes are replaced in the order of the patterns
ofBytes.replace(made, { fox: Uint8Array.of(1) });

export { all, again, flat, found, last, other, places, text, version };
