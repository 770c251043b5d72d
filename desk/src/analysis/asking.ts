/** Asking the engine for words under all rankings of a card: every answer is asked, none is inferred from another. */
import { Engine } from "../engine/engine";
import { Refusal, Refused, unless } from "../engine/refusals";
import { Best, Ranking, Word } from "../engine/results";
import { BadInput, counted } from "../model/badInput";
import { allRankings, Card, distinct } from "../model/card";
import { wordText } from "../model/notation";
import { Task } from "./task";

/** The best candidate, or null where the word has no complete candidate (refusal 10). */
export type Answer = Best | null;

/** The answers to some words under some rankings: `answers[ranking][word]`. */
export interface Asked {
  readonly words: readonly Word[];
  readonly rankings: readonly Ranking[];
  readonly answers: readonly (readonly Answer[])[];
}

export function ask(engine: Engine, card: Card, ranking: Ranking, word: Word): Answer {
  return unless(Refusal.NO_CANDIDATE, () => engine.optimize(card.bytes, ranking, word));
}

/** A word that the engine does not take is bad input, named. */
export function checkWords(engine: Engine, card: Card, words: readonly Word[]): void {
  const ranking = card.machines.map((_, machine) => machine);
  for (const word of words) {
    try {
      ask(engine, card, ranking, word);
    } catch (error) {
      if (error instanceof Refused) throw new BadInput(`word ${wordText(card, word)}: ${error.message}`);
      throw error;
    }
  }
}

/** Every word under every ranking, or under those that are named. Equal answers are one value. */
export function* askAll(engine: Engine, card: Card, words: readonly Word[], rankings: readonly Ranking[] = allRankings(card.machines.length)): Task<Asked> {
  checkWords(engine, card, words);
  const search = engine.searcher(card.bytes, words);
  const answers: Answer[][] = [];
  const numbers = new Map<Answer, number>();
  const languages = new Set<string>();
  for (const ranking of rankings) {
    const row: Answer[] = [];
    let language = "";
    for (let word = 0; word < words.length; word++) {
      if (word % LOOK === 0) yield { done: answers.length, of: rankings.length, what: "rankings", found: counted(languages.size, "language") };
      const best = unless(Refusal.NO_CANDIDATE, () => search(ranking, word));
      row.push(best);
      if (!numbers.has(best)) numbers.set(best, numbers.size);
      language += ` ${numbers.get(best)}`;
    }
    answers.push(row);
    languages.add(language);
  }
  return { words, rankings, answers };
}

/** So many words are asked between two looks at who waits: of the worst accepted card some milliseconds. */
const LOOK = 8;

/** The answers that some ranking gives a word, in the order of the smallest rankings that give them. */
export function contenders(asked: Asked, word: number): Best[] {
  const found = new Set(asked.answers.map((answers) => answers[word] ?? null));
  return distinct([...found].flatMap((answer) => answer ?? []));
}
