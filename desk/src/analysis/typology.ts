/**
 * Every language that the rankings of a card make of some words. A language is the forms of the words: two rankings whose answers spell
 * the same outputs make one, whatever the alignments. Machines without marks take no part.
 */
import { Engine } from "../engine/engine";
import { Best, Condition, Ranking, Word } from "../engine/results";
import { Card, essentialRankings, formOf, keyOf } from "../model/card";
import { answerLine, commas, digits } from "../model/notation";
import { Answer, askAll, Asked, contenders } from "./asking";
import { against, few, fits } from "./conditions";
import { Task } from "./task";

/** The answers of the smallest ranking, the rankings that give their forms, the smallest first, and what picks these rankings out. */
export interface Language {
  readonly answers: readonly Answer[];
  readonly rankings: readonly Ranking[];
  /** A ranking makes the language exactly when it fits all conditions of one of these: one, but where alignments differ. */
  readonly ways: readonly (readonly Condition[])[];
}

/** The languages of some words, in the order of their smallest rankings. */
export interface Typology {
  readonly words: readonly Word[];
  readonly languages: readonly Language[];
}

const keyOfAnswer = (answer: Answer): string => keyOf(answer && answer.candidate);

const keyOfForm = (answer: Answer): string => keyOf(answer && formOf(answer.candidate));

/** Some words under all rankings of the machines with marks. */
export function askEssential(engine: Engine, card: Card, words: readonly Word[]): Task<Asked> {
  return askAll(engine, card, words, essentialRankings(card));
}

/** The languages of what was asked under all rankings, of the machines with marks or of all. */
export function typologyOf(engine: Engine, card: Card, asked: Asked): Typology {
  const found = new Map<string, { answers: readonly Answer[]; rankings: Ranking[] }>();
  const keys = new Map<Answer, string>();
  const known = (answer: Answer): string => {
    const key = keys.get(answer) ?? keyOfAnswer(answer);
    keys.set(answer, key);
    return key;
  };
  asked.answers.forEach((answers, at) => {
    const key = answers.map(known).join();
    const language = found.get(key) ?? { answers, rankings: [] };
    language.rankings.push(asked.rankings[at]!);
    found.set(key, language);
  });
  const ofWords = asked.words.map((_, word) => needed(engine, card, contenders(asked, word)));
  // What is aligned alike, in the order of the smallest rankings; then by form.
  const byForm = new Map<string, { answers: readonly Answer[]; rankings: Ranking[]; ways: Condition[][] }>();
  for (const { answers, rankings } of found.values()) {
    const conditions = few(engine, card.machines.length, answers.flatMap((answer, word) => ofWords[word]!.get(keyOfAnswer(answer)) ?? []));
    const key = answers.map(keyOfForm).join();
    const language = byForm.get(key) ?? { answers, rankings: [], ways: [] };
    language.rankings.push(...rankings);
    language.ways.push(conditions);
    byForm.set(key, language);
  }
  const order = new Map(asked.rankings.map((ranking, at) => [ranking, at]));
  const languages = [...byForm.values()].map(({ answers, rankings, ways }): Language => {
    rankings.sort((one, two) => order.get(one)! - order.get(two)!);
    return { answers, rankings, ways: ways.length > 1 ? asOne(engine, card, asked.rankings, rankings) ?? ways : ways };
  });
  return { words: asked.words, languages };
}

/** The conditions that pick exactly these rankings out of all, where there are such; else null. */
function asOne(engine: Engine, card: Card, all: readonly Ranking[], rankings: readonly Ranking[]): Condition[][] | null {
  const machines = card.machines.length;
  const shared: Condition[] = [];
  for (let more = 0; more < machines; more++) {
    for (let fewer = 0; fewer < 1 << machines; fewer++) {
      const condition = { fewer, more: 1 << more };
      // A larger set before the sign says less: it follows.
      const follows = shared.some((other) => other.more === condition.more && (other.fewer & fewer) === other.fewer);
      if (!(fewer >> more & 1) && !follows && rankings.every((ranking) => fits(ranking, condition))) shared.push(condition);
    }
  }
  if (all.filter((ranking) => shared.every((condition) => fits(ranking, condition))).length !== rankings.length) return null;
  return [few(engine, machines, shared)];
}

/** For each answer to a word the conditions under which it is the best, against everything that some ranking makes the best. */
function needed(engine: Engine, card: Card, best: readonly Best[]): Map<string, Condition[]> {
  const profiles = best.map(({ counts }) => counts);
  return new Map(best.map((each) => [keyOfAnswer(each), against(engine, card.machines.length, each.counts, profiles)]));
}

export function typologyJson(card: Card, { words, languages }: Typology): object {
  return {
    words: words.map(commas),
    languages: languages.map(({ answers, rankings }) => ({
      answers: answers.map((answer) => answerLine(card, answer)),
      rankings: rankings.length,
      smallest: digits(rankings[0]!),
    })),
  };
}
