/** The arcs that no answer to a list of words travels. */
import { Engine } from "../engine/engine";
import { Refused } from "../engine/refusals";
import { Candidate, Ranking, Word } from "../engine/results";
import { BadInput } from "../model/badInput";
import { allRankings, Card, cardBytes, distinct, same, setName } from "../model/card";
import { Arc, Machine, travelled } from "../model/machine";
import { ask, askAll, Asked } from "./asking";
import { Task } from "./task";

/** The proved promise that they can be left out. */
export const PROMISE = "trimming/Trimming.same_answer";

export interface Trimming {
  /** How many of the questions have an answer. */
  readonly answered: number;
  /** The unused arcs of each machine, by their numbers. */
  readonly unused: readonly (readonly number[])[];
  /** The card without them, and how many of the answers asked again are the same. */
  readonly trimmed: Card;
  readonly same: number;
}

function unusedArcs(machine: Machine, candidates: readonly Candidate[]): number[] {
  const used = new Set(candidates.flatMap((candidate) => travelled(machine, candidate)));
  return machine.arcs.map((_, arc) => arc).filter((arc) => !used.has(arc));
}

/** Asks the words under the rankings, all of them where none is named, and the card without the unused arcs once more. */
export function* trim(engine: Engine, card: Card, words: readonly Word[], named: readonly Ranking[]): Task<Trimming> {
  const rankings = named.length ? named : allRankings(card.machines.length);
  let asked: Asked;
  try {
    asked = yield* askAll(engine, card, words, rankings);
  } catch (error) {
    throw error instanceof Refused ? new BadInput(`ranking: ${error.message}`) : error;
  }
  const answers = asked.answers.flat();
  const candidates = distinct(answers.flatMap((answer) => (answer ? [answer.candidate] : [])));
  const unused = card.machines.map((machine) => unusedArcs(machine, candidates));
  const machines = card.machines.map((machine, at) => ({ ...machine, arcs: machine.arcs.filter((_, arc) => !unused[at]!.includes(arc)) }));
  const trimmed = { ...card, machines, bytes: cardBytes(card.symbols.length - 1, machines) };
  let kept = 0;
  for (const [at, ranking] of rankings.entries()) {
    yield { done: at, of: rankings.length, what: "rankings once more" };
    words.forEach((word, number) => {
      const answer = asked.answers[at]![number]!;
      if (answer && same(ask(engine, trimmed, ranking, word), answer)) kept++;
    });
  }
  return { answered: answers.filter((answer) => answer).length, unused, trimmed, same: kept };
}

/** An arc as card.txt has it. */
export function arcText(card: Card, machine: Machine, { from, to, inputs, outputs, marks, kind }: Arc): string {
  const state = (number: number) => machine.states[number]!.name;
  const more = `${marks ? `  ${marks}` : ""}${kind === "any" ? "" : `  ${kind}`}`;
  return `${state(from)} -> ${state(to)}  ${setName(card, inputs)} : ${setName(card, outputs)}${more}`;
}
