/** The best candidate by weights, and the rankings that agree. */
import { Engine } from "../engine/engine";
import { WEIGHT } from "../engine/limits";
import { Refusal, Refused, unless } from "../engine/refusals";
import { Ranking, Weighed, Word } from "../engine/results";
import { BadInput, quoted } from "../model/badInput";
import { Card, same } from "../model/card";
import { machineNames, normalised, readMachine, split, wordText } from "../model/notation";
import { askAll } from "./asking";
import { Task } from "./task";

/** A weight in thousandths, from a number with at most three decimals. */
export function readWeight(text: string): number {
  const found = /^([0-9]{1,10})(?:\.([0-9]{1,3}))?$/.exec(text);
  if (!found) throw new BadInput(`weight ${quoted(text)}: a weight is a number with at most three decimals`);
  return 1000 * Number(found[1]) + Number((found[2] ?? "").padEnd(3, "0"));
}

/** The weights in card order: numbers with commas, or NAME=WEIGHT of each machine. */
export function readWeights(card: Card, text: string): number[] {
  const weights = text.includes("=") ? namedWeights(card, text) : text.split(",").map(readWeight);
  if (weights.some((weight) => weight > WEIGHT)) throw new BadInput(`weights ${quoted(text)}: ${new Refused(Refusal.WEIGHTS).message}`);
  return weights;
}

function namedWeights(card: Card, text: string): number[] {
  const named = split(normalised(text)).map((part) => {
    // A name may hold =; its weight is behind the last one.
    const sign = part.lastIndexOf("=");
    return [readMachine(card, part.slice(0, sign)), readWeight(part.slice(sign + 1))] as const;
  });
  const given = new Map(named);
  if (given.size !== card.machines.length || named.length !== card.machines.length) {
    throw new BadInput(`weights ${quoted(text)}: one for each of ${machineNames(card).join(" ")}`);
  }
  return card.machines.map((_, machine) => given.get(machine)!);
}

/** Thousandths as a number with decimals. */
export function decimal(thousandths: bigint | number): string {
  const number = BigInt(thousandths);
  const decimals = String(number % 1000n).padStart(3, "0").replace(/0+$/, "");
  return `${number / 1000n}${decimals ? `.${decimals}` : ""}`;
}

export interface Weighing {
  /** Null where the word has no candidate. */
  readonly best: Weighed | null;
  /** The rankings under which the same candidate is the best. */
  readonly agree: readonly Ranking[];
  readonly of: number;
}

export function* weigh(engine: Engine, card: Card, weights: readonly number[], word: Word): Task<Weighing> {
  let best: Weighed | null;
  try {
    best = unless(Refusal.NO_CANDIDATE, () => engine.optimizeWeights(card.bytes, weights, word));
  } catch (error) {
    if (!(error instanceof Refused)) throw error;
    throw new BadInput(`weights ${quoted(weights.map(decimal).join(","))}, word ${wordText(card, word)}: ${error.message}`);
  }
  if (best === null) return { best, agree: [], of: 0 };
  const { candidate } = best;
  const { rankings, answers } = yield* askAll(engine, card, [word]);
  return { best, agree: rankings.filter((_, at) => same(answers[at]![0]?.candidate, candidate)), of: rankings.length };
}
