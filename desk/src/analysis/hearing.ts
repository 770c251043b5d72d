/** The best candidate over all words that were perhaps heard. */
import { Engine } from "../engine/engine";
import { Refusal, Refused, unless } from "../engine/refusals";
import { Best, Ranking, SymbolSet } from "../engine/results";
import { BadInput } from "../model/badInput";
import { symbolsOf } from "../model/machine";
import { Card } from "../model/card";

/** The best, or null where none of the words has a candidate. `asked` names the question in a complaint. */
export function hear(engine: Engine, card: Card, ranking: Ranking, sets: readonly SymbolSet[], asked: string): Best | null {
  try {
    return unless(Refusal.NO_CANDIDATE, () => engine.optimizeSets(card.bytes, ranking, sets));
  } catch (error) {
    throw error instanceof Refused ? new BadInput(`${asked}: ${error.message}`) : error;
  }
}

/** How many words there are with one symbol from each set. */
export function wordCount(sets: readonly SymbolSet[]): number {
  return sets.reduce((product, set) => product * symbolsOf(set).length, 1);
}
