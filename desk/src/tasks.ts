/**
 * What the page asks of its worker: each is a task over the engine and plain values. A new question is a line here; the page asks it
 * by `desk.ask` where it takes a blink, by `desk.askLong` where it may take longer.
 */
import { contenders } from "./analysis/asking";
import { refusal, whereRefused } from "./analysis/diagnosis";
import { hear } from "./analysis/hearing";
import { join } from "./analysis/joining";
import { judge } from "./analysis/judging";
import { findRanking } from "./analysis/ranking";
import { evaluated, Evaluated, Tableau, tableauWith, withForm } from "./analysis/tableau";
import { Task } from "./analysis/task";
import { trim } from "./analysis/trimming";
import { askEssential, typologyOf, Typology } from "./analysis/typology";
import { weigh } from "./analysis/weighing";
import { Engine } from "./engine/engine";
import { FILE_BYTES } from "./engine/limits";
import { Refused } from "./engine/refusals";
import { Best, Candidate, Profile, Ranking, SymbolSet, Word } from "./engine/results";
import { BadInput } from "./model/badInput";
import { Card, ClaimedRow, listedFor, machinesOf, numbered, tableauBytes } from "./model/card";
import { Mistake, readCardText } from "./model/cardText";

/** Every form that some ranking makes the best, for each word, and the typology. */
export interface Study {
  readonly contenders: readonly (readonly Best[])[];
  readonly typology: Typology;
}

/** A task that has its answer at once. */
function* at<T>(answer: () => T): Task<T> {
  return answer();
}

export const tasks = {
  /** The card of a card.txt. */
  openText: (engine: Engine, title: string, text: string): Task<Card> =>
    at(() => {
      try {
        return readCardText(engine, title, text);
      } catch (error) {
        if (error instanceof Mistake) throw new BadInput(`${title}, line ${error.line}: ${error.reason}`);
        throw error;
      }
    }),

  /** The card of a card.bin, its names numbers. */
  openBytes: (engine: Engine, title: string, bytes: Uint8Array): Task<Card> =>
    at(() => {
      const card = bytes.slice(0, FILE_BYTES);
      const number = refusal(engine, card);
      if (number) throw new BadInput(`${title}: ${new Refused(number).message}: ${whereRefused(engine, card, number)}`);
      return numbered(title, card, machinesOf(engine, card));
    }),

  /** Words' tableaux under a ranking: the best, what ties with it, what is known to be best under some ranking, the author's, and those that a person typed. */
  tableaux: function* (
    engine: Engine,
    card: Card,
    ranking: Ranking,
    asked: readonly { word: Word; contenders: readonly Best[]; typed: readonly Candidate[] }[],
  ): Task<Tableau[]> {
    const words: Tableau[] = [];
    for (const { word, contenders: known, typed } of asked) {
      yield { done: words.length, of: asked.length, what: "tableaux" };
      words.push(yield* tableauWith(engine, card, ranking, word, known, [...listedFor(card, word), ...typed]));
    }
    return words;
  },

  /** Words under all rankings of the machines with marks. */
  study: function* (engine: Engine, card: Card, words: readonly Word[]): Task<Study> {
    const asked = yield* askEssential(engine, card, words);
    return { contenders: words.map((_, word) => contenders(asked, word)), typology: typologyOf(engine, card, asked) };
  },

  /** The counts of candidates for a word. */
  evaluate: (engine: Engine, card: Card, word: Word, candidates: readonly Candidate[]): Task<Evaluated[]> =>
    at(() => candidates.map((candidate) => ({ candidate, counts: evaluated(engine, card, word, candidate) as Profile }))),

  /** The best candidate for a word with a form. */
  align: (engine: Engine, card: Card, ranking: Ranking, word: Word, form: Word): Task<Evaluated> => at(() => withForm(engine, card, ranking, word, form)),

  findRanking,
  weigh,
  join,
  trim,
  hear: (engine: Engine, card: Card, ranking: Ranking, sets: readonly SymbolSet[], asked: string) => at(() => hear(engine, card, ranking, sets, asked)),
  judge: (engine: Engine, card: Card, ranking: Ranking, word: Word, rows: readonly ClaimedRow[]) => at(() => judge(engine, card, ranking, word, tableauBytes(rows))),
};

export type Tasks = typeof tasks;
export type TaskName = keyof Tasks;
/** What a task takes, beside the engine. */
export type Given<N extends TaskName> = Tasks[N] extends (engine: Engine, ...given: infer G) => unknown ? G : never;
/** What a task answers. */
export type Answered<N extends TaskName> = ReturnType<Tasks[N]> extends Task<infer A> ? A : never;
