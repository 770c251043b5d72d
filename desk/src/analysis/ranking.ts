/** The smallest ranking under which given candidates are the best, or which of them contradict. */
import { Engine } from "../engine/engine";
import { Best, Candidate, Condition, Profile, Ranking, Word } from "../engine/results";
import { Card, countsOf, distinct, keyOf, tableauBytes } from "../model/card";
import { colons, commas, digits, pairsText } from "../model/notation";
import { askAll, contenders } from "./asking";
import { against, few, smallest } from "./conditions";
import { evaluated } from "./tableau";
import { Task } from "./task";

/** A candidate that shall be the best for its word: its counts, and the conditions against all contenders. */
export interface Wanted {
  readonly word: Word;
  readonly candidate: Candidate;
  readonly counts: Profile;
  readonly conditions: readonly Condition[];
}

export interface Found {
  readonly wanted: readonly Wanted[];
  /** Null where there is none. */
  readonly ranking: Ranking | null;
  /** Those that no ranking makes the best together, and of which none can be left out. */
  readonly contradict: readonly Wanted[];
  /** The conditions of all, without those that follow from the rest. */
  readonly needed: readonly Condition[];
  /** The engine's own best under the ranking, for each that is wanted. */
  readonly answers: readonly Best[];
}

export function* findRanking(engine: Engine, card: Card, asked: readonly { word: Word; candidate: Candidate }[]): Task<Found> {
  const words = distinct(asked.map(({ word }) => word));
  const answers = yield* askAll(engine, card, words);
  const keys = words.map(keyOf);
  const wanted = asked.map(({ word, candidate }): Wanted => {
    const counts = evaluated(engine, card, word, candidate);
    const others = contenders(answers, keys.indexOf(keyOf(word))).map((best) => best.counts);
    return { word, candidate, counts, conditions: against(engine, card.machines.length, counts, others) };
  });
  const needed = neededBy(engine, card, wanted);
  const ranking = smallest(engine, card.machines.length, needed);
  return {
    wanted,
    ranking,
    needed,
    contradict: ranking === null ? contradicting(engine, card, wanted) : [],
    answers: ranking === null ? [] : wanted.map((each) => checked(engine, card, ranking, each)),
  };
}

function neededBy(engine: Engine, card: Card, wanted: readonly Wanted[]): Condition[] {
  return few(engine, card.machines.length, wanted.flatMap(({ conditions }) => conditions));
}

function contradicting(engine: Engine, card: Card, wanted: readonly Wanted[]): Wanted[] {
  let kept = [...wanted];
  for (const each of wanted) {
    const rest = kept.filter((other) => other !== each);
    if (rest.length && smallest(engine, card.machines.length, neededBy(engine, card, rest)) === null) kept = rest;
  }
  return kept;
}

/** Asks the engine: the candidate, sent as a tableau of one row, is judged right. Answers the engine's own best. */
function checked(engine: Engine, card: Card, ranking: Ranking, { word, candidate, counts }: Wanted): Best {
  const sent = tableauBytes([{ claimed: true, candidate, counts: countsOf(card, counts) }]);
  if (engine.judge(card.bytes, ranking, word, sent).verdict !== "right") {
    throw new Error(`${pairsText(card, candidate)} is not the best under ${digits(ranking)}`);
  }
  return engine.optimize(card.bytes, ranking, word);
}

export function rankingJson({ ranking, contradict }: Found): object {
  return {
    ranking: ranking === null ? null : digits(ranking),
    contradict: contradict.map(({ word, candidate }) => `${commas(word)}=${colons(candidate)}`),
  };
}
