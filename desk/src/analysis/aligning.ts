/** A candidate by its form: the best alignment of a word with what it is pronounced as. */
import { Candidate, Pair, Word } from "../engine/results";
import { Product } from "./product";

/** Symbols of a form that is aligned. A longer one is given as pairs. */
export const FORM = 200;

/** Pairs are counted behind the marks, in so many bits. */
const PAIR_BITS = 12n;

/**
 * The best candidate for a word with a form, as the engine chooses among candidates: by the ranking, then with the fewest pairs, then the
 * smallest pairs. Null where no candidate has the form. `onWay` leaves out nodes that are known to be on no best way.
 */
export function aligned(product: Product, word: Word, form: Word, onWay: (place: number, joint: number) => boolean = () => true): Candidate | null {
  const { size } = product;
  const place = (read: number, written: number, joint: number) => (read * (form.length + 1) + written) * size + joint;
  const least: (bigint | undefined)[] = Array.from({ length: place(word.length, form.length, size) }, () => undefined);
  /** The ways on from a place, those with the smaller pair first. */
  const ways = (read: number, written: number, joint: number) => {
    const [input, output] = [word[read], form[written]];
    const pairs: Pair[] = [];
    if (output !== undefined) pairs.push([0, output]);
    if (input !== undefined) pairs.push([input, 0]);
    if (input !== undefined && output !== undefined) pairs.push([input, output]);
    return pairs.flatMap((pair) => {
      const step = product.steps(joint, pair[0])[pair[1]];
      if (!step) return [];
      const [nextRead, nextWritten] = [read + (pair[0] ? 1 : 0), written + (pair[1] ? 1 : 0)];
      const rest = least[place(nextRead, nextWritten, step.to)];
      return rest === undefined ? [] : [{ pair, read: nextRead, written: nextWritten, joint: step.to, cost: (step.cost << PAIR_BITS) + 1n + rest }];
    });
  };
  for (let read = word.length; read >= 0; read--) {
    for (let written = form.length; written >= 0; written--) {
      for (let joint = 0; joint < size; joint++) {
        if (!onWay(read, joint)) continue;
        const end = read === word.length && written === form.length ? product.ending(joint) : null;
        const costs = ways(read, written, joint).map(({ cost }) => cost);
        if (end !== null) costs.push(end << PAIR_BITS);
        if (costs.length) least[place(read, written, joint)] = costs.reduce((one, two) => (two < one ? two : one));
      }
    }
  }
  if (least[place(0, 0, 0)] === undefined) return null;
  const candidate: Pair[] = [];
  let [read, written, joint] = [0, 0, 0];
  while (read < word.length || written < form.length) {
    const due = least[place(read, written, joint)];
    const way = ways(read, written, joint).find(({ cost }) => cost === due)!;
    candidate.push(way.pair);
    ({ read, written, joint } = way);
  }
  return candidate;
}
