/** Two machines of a card as one, and the card's lines answered alike by both. */
import { Engine } from "../engine/engine";
import { Refused } from "../engine/refusals";
import { Ranking, Word } from "../engine/results";
import { BadInput } from "../model/badInput";
import { allRankings, Card, countsOf, Line, same } from "../model/card";
import { machineOf, marked } from "../model/machine";
import { Answer, ask } from "./asking";
import { Task } from "./task";

export interface JoinedLine {
  readonly line: Line;
  readonly ranking: Ranking;
  readonly answer: Answer;
  readonly alike: boolean;
}

export interface Joining {
  readonly card: Card;
  /** The machine that has no marks and left the rankings, by its number in the old card. */
  readonly gone: number;
  readonly lines: readonly JoinedLine[];
}

/** The card with two of its machines joined, by the proved call, its names kept. */
export function joinedCard(engine: Engine, card: Card, first: number, second: number): Card {
  let bytes: Uint8Array;
  try {
    bytes = engine.join(card.bytes, first, second);
  } catch (error) {
    if (!(error instanceof Refused)) throw error;
    throw new BadInput(`${card.machines[first]!.name} and ${card.machines[second]!.name}: ${error.message}`);
  }
  const [lower, higher] = [Math.min(first, second), Math.max(first, second)];
  const [one, two] = [card.machines[lower]!, card.machines[higher]!];
  const name = marked(two) ? two.name : one.name;
  const states = one.states.flatMap((s) => two.states.map((t) => `${s.name}+${t.name}`));
  const { offset, length } = engine.readPart(bytes, lower);
  const joined = machineOf(bytes.subarray(offset, offset + length), name, states);
  const machines = card.machines.map((machine, at) => (at === lower ? joined : machine)).filter((_, at) => at !== higher);
  return { ...card, machines, lines: [], claims: [], winners: [], bytes };
}

/** A ranking of the old card without the machine that left: the other one's new number for it, the later numbers one less. */
export function newRanking(ranking: Ranking, kept: number, gone: number): Ranking {
  const [lower, higher] = [Math.min(kept, gone), Math.max(kept, gone)];
  return ranking.filter((machine) => machine !== gone).map((machine) => (machine === kept ? lower : machine > higher ? machine - 1 : machine));
}

/** Whether two answers are the same candidate, the new counts being the old ones with the two added. */
function alike(card: Card, old: Answer, now: Answer, kept: number, gone: number): boolean {
  if (old === null || now === null) return old === now;
  const [lower, higher] = [Math.min(kept, gone), Math.max(kept, gone)];
  const counts = countsOf(card, old.counts);
  counts[lower] += counts.splice(higher, 1)[0]!;
  return same(old.candidate, now.candidate) && same(counts, now.counts.slice(0, counts.length));
}

/** Joins, and asks both cards the same lines: the card's own, or the named words under every ranking. */
export function* join(engine: Engine, card: Card, first: number, second: number, words: readonly Word[]): Task<Joining> {
  const made = joinedCard(engine, card, first, second);
  const [gone, kept] = marked(card.machines[first]!) ? [second, first] : [first, second];
  const asked = words.length ? allRankings(card.machines.length).flatMap((ranking) => words.map((word) => ({ ranking, word }))) : card.lines;
  const lines: JoinedLine[] = [];
  for (const line of asked) {
    yield { done: lines.length, of: asked.length, what: "lines" };
    const ranking = newRanking(line.ranking, kept, gone);
    const answer = ask(engine, made, ranking, line.word);
    lines.push({ line, ranking, answer, alike: alike(card, ask(engine, card, line.ranking, line.word), answer, kept, gone) });
  }
  return { card: made, gone, lines };
}
