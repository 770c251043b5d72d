/** Ranking conditions as the engine derives them, and the few of them that say it all. */
import { Engine } from "../engine/engine";
import { Refusal, unless } from "../engine/refusals";
import { Condition, Profile, Ranking } from "../engine/results";
import { Card, keyOf } from "../model/card";

/** The smallest ranking that fits them all, null where none does. */
export function smallest(engine: Engine, machines: number, conditions: readonly Condition[]): Ranking | null {
  return unless(Refusal.NO_RANKING, () => engine.findRanking(machines, conditions));
}

/**
 * Whether every ranking that fits the conditions fits another: none fits them and its opposite.
 *
 * A ranking does not fit (W, L) exactly when the highest machine in either is in L, which is to fit (L, W) where L is not empty.
 */
export function follows(engine: Engine, machines: number, conditions: readonly Condition[], other: Condition): boolean {
  return !other.more || smallest(engine, machines, [...conditions, { fewer: other.more, more: other.fewer }]) === null;
}

/** The conditions under which no other profile is better, without those that follow from the rest. */
export function against(engine: Engine, machines: number, profile: Profile, others: readonly Profile[]): Condition[] {
  return few(engine, machines, others.map((other) => engine.condition(machines, profile, other)));
}

/**
 * The conditions without those that follow from the rest; kept short as they come, under the finder's limit of 64.
 *
 * (W, L) is fitted exactly when (W, {l}) is for each l of L, so each is taken apart first.
 */
export function few(engine: Engine, machines: number, conditions: readonly Condition[]): Condition[] {
  const apart = new Map<string, Condition>();
  for (const { fewer, more } of conditions) {
    for (let machine = 0; machine < machines; machine++) {
      const one = { fewer, more: 1 << machine };
      if (more >> machine & 1) apart.set(keyOf(one), one);
    }
  }
  let kept: Condition[] = [];
  for (const condition of apart.values()) {
    if (!follows(engine, machines, kept, condition)) kept = withoutWhatFollows(engine, machines, [...kept, condition]);
  }
  return kept;
}

function withoutWhatFollows(engine: Engine, machines: number, conditions: readonly Condition[]): Condition[] {
  let kept = [...conditions];
  for (const condition of conditions) {
    const rest = kept.filter((other) => other !== condition);
    if (follows(engine, machines, rest, condition)) kept = rest;
  }
  return kept;
}

/** Whether a ranking fits a condition: the highest machine of either set is in the first. */
export function fits(ranking: Ranking, { fewer, more }: Condition): boolean {
  const highest = ranking.find((machine) => (fewer | more) >> machine & 1);
  return highest === undefined || (fewer >> highest & 1) === 1;
}

/** The machines of a condition's bits. */
export function machinesIn(card: Card, bits: number): number[] {
  return card.machines.map((_, machine) => machine).filter((machine) => bits >> machine & 1);
}

/** A condition in names: one of those before the sign is ranked above all of those after it. */
export function conditionText(card: Card, { fewer, more }: Condition, sign = ">>"): string {
  const names = (bits: number) => machinesIn(card, bits).map((machine) => card.machines[machine]!.name);
  return `${names(fewer).join(" or ") || "nothing"} ${sign} ${names(more).join(", ")}`;
}

/** Conditions of which one list is to be fitted whole; empty where every ranking does. */
export function waysText(card: Card, ways: readonly (readonly Condition[])[], sign = ">>"): string {
  const texts = ways.map((conditions) => conditions.map((condition) => conditionText(card, condition, sign)).join("; "));
  return texts.includes("") ? "" : texts.join(", or ");
}
