/** A word's candidates under a ranking, as a textbook shows them. */
import { Engine } from "../engine/engine";
import { Refused, Refusal, unless } from "../engine/refusals";
import { Best, Candidate, Profile, Ranking, Word } from "../engine/results";
import { BadInput, quoted } from "../model/badInput";
import { Card, countsOf, formOf, keyOf, same, spelledBy } from "../model/card";
import { colons, commas, digits, pairsText, spelled, wordText } from "../model/notation";
import { aligned, FORM } from "./aligning";
import { ask, askAll, contenders } from "./asking";
import { stoppedAt } from "./completeness";
import { Product } from "./product";
import { Task } from "./task";
import { NO_TIES, Ties, tiesOf } from "./ties";

/** A count above it is shown as a number. */
export const MOST_STARS = 9;

/** A candidate, its counts, whether it is the answer, and the machine where it loses to the answer (null where it ties). */
export interface Row {
  readonly candidate: Candidate;
  readonly counts: Profile;
  readonly winner: boolean;
  readonly decided: number | null;
  /** Whether it is another form with the answer's profile. */
  readonly tie: boolean;
}

/** A word's rows under a ranking: the answer first, then what ties with it, and none where the word has no candidate. */
export interface Tableau {
  readonly ranking: Ranking;
  readonly word: Word;
  readonly rows: readonly Row[];
  readonly ties: Ties;
}

/** A candidate with its counts. */
export interface Evaluated {
  readonly candidate: Candidate;
  readonly counts: Profile;
}

/** The counts of a candidate for a word, as the engine evaluates it. */
export function evaluated(engine: Engine, card: Card, word: Word, candidate: Candidate): Profile {
  let counts: Profile;
  const named = `candidate ${quoted(pairsText(card, candidate))}`;
  try {
    ({ counts } = engine.evaluate(card.bytes, candidate));
  } catch (error) {
    if (!(error instanceof Refused)) throw error;
    const where = error.number === Refusal.NOT_COMPLETE ? `: ${stoppedAt(card, candidate)}` : "";
    throw new BadInput(`${named}: ${error.message}${where}`);
  }
  const spells = spelledBy(candidate);
  if (!same(spells, word)) throw new BadInput(`${named} spells ${wordText(card, spells)}, the word is ${wordText(card, word)}`);
  return counts;
}

/** The contenders and the named candidates with their counts, each once. */
export function candidatesOf(engine: Engine, card: Card, best: readonly Best[], word: Word, named: readonly Candidate[]): Evaluated[] {
  const rows = new Map<string, Evaluated>(best.map(({ candidate, counts }) => [keyOf(candidate), { candidate, counts }]));
  for (const candidate of named) {
    const key = keyOf(candidate);
    if (!rows.has(key)) rows.set(key, { candidate, counts: evaluated(engine, card, word, candidate) });
  }
  return [...rows.values()];
}

/** The machine where a row loses to the best, as the engine compares them; null where it does not. */
export function decidedBy(engine: Engine, card: Card, ranking: Ranking, counts: Profile, best: Profile): number | null {
  return engine.compare(card.machines.length, ranking, counts, best).machine;
}

/** A ranking that the engine does not take is bad input. */
export function checkRanking(engine: Engine, card: Card, ranking: Ranking): void {
  try {
    unless(Refusal.NO_CANDIDATE, () => engine.optimize(card.bytes, ranking, []));
  } catch (error) {
    if (error instanceof Refused) throw new BadInput(`ranking ${digits(ranking)}: ${error.message}`);
    throw error;
  }
}

/** The rows of some candidates under a ranking: the answer, what ties with it, the others. */
function rowsUnder(engine: Engine, card: Card, ranking: Ranking, best: Evaluated, ties: Ties, others: readonly Evaluated[]): Row[] {
  const rows = new Map([best, ...ties.rows, ...others].map((row) => [keyOf(row.candidate), row]));
  return [...rows.values()].map((row) => {
    const winner = row.candidate === best.candidate || same(row.candidate, best.candidate);
    const decided = decidedBy(engine, card, ranking, row.counts, best.counts);
    const tie = decided === null && !same(formOf(row.candidate), formOf(best.candidate));
    return { candidate: row.candidate, counts: row.counts, winner, decided, tie };
  });
}

/** The tableau of a word: the answer, what ties with it, what is known to be best under some ranking, and candidates that are named. */
export function* tableauWith(
  engine: Engine,
  card: Card,
  ranking: Ranking,
  word: Word,
  known: readonly Best[],
  named: readonly Candidate[],
): Task<Tableau> {
  const best = ask(engine, card, ranking, word);
  if (best === null) return { ranking, word, rows: [], ties: NO_TIES };
  const ties = yield* tiesOf(engine, card, ranking, word, best);
  return { ranking, word, rows: rowsUnder(engine, card, ranking, best, ties, candidatesOf(engine, card, known, word, named)), ties };
}

/** The tableau of a word, with every candidate that some ranking makes the best, and those that are named. */
export function* tableauOf(engine: Engine, card: Card, ranking: Ranking, word: Word, named: readonly Candidate[]): Task<Tableau> {
  checkRanking(engine, card, ranking);
  const asked = yield* askAll(engine, card, [word]);
  return yield* tableauWith(engine, card, ranking, word, contenders(asked, 0), named);
}

/** The best candidate under a ranking with a form that a person typed, with its counts by the engine. */
export function withForm(engine: Engine, card: Card, ranking: Ranking, word: Word, form: Word): Evaluated {
  checkRanking(engine, card, ranking);
  if (form.length > FORM) throw new BadInput(`a form of ${form.length} symbols, more than ${FORM}: give it as pairs`);
  const candidate = aligned(new Product(card, ranking), word, form);
  if (!candidate) throw new BadInput(`form ${spelled(card, form)}: the machines take no candidate for ${wordText(card, word)} with this form`);
  return { candidate, counts: evaluated(engine, card, word, candidate) };
}

/** A count as stars, with ! after the first one that the best does not have, where it decides. */
export function marks(count: number, fatal: boolean, least: number): string {
  if (count > MOST_STARS) return `${count}${fatal ? "!" : ""}`;
  return fatal ? `${"*".repeat(least + 1)}!${"*".repeat(count - least - 1)}` : "*".repeat(count);
}

export function tableauJson(card: Card, { ranking, word, rows, ties }: Tableau): object {
  return {
    ranking: digits(ranking),
    word: commas(word),
    rows: rows.map(({ candidate, counts, winner, decided }) => ({ candidate: colons(candidate), counts: countsOf(card, counts), winner, decided })),
    ties: rows.filter(({ tie }) => tie).map(({ candidate }) => colons(candidate)),
    cut: ties.cut,
    endless: ties.endless,
  };
}

