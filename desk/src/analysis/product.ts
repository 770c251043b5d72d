/** The machines of a card as one: joint states, and where a pair leads from them. Read off the card; the engine evaluates what is found. */
import { Profile, Ranking } from "../engine/results";
import { Card } from "../model/card";
import { Machine, symbolsOf, takes } from "../model/machine";

/** Bits of one count in a cost: more than any count along a way that passes no node twice. */
const DIGIT = 20n;

/** Where a pair leads, and what it costs. */
export interface Step {
  readonly to: number;
  readonly cost: bigint;
}

/** The steps of a joint state by their outputs; a hole where no step is. */
export type Steps = readonly (Step | undefined)[];

/**
 * The joint states of a card's machines under a ranking; the first is 0. A cost is a profile as one number, the highest ranked count in
 * front: costs add as profiles do, and compare as the ranking has it.
 */
export class Product {
  /** How many joint states there are. */
  readonly size: number;
  private readonly ways: readonly Map<number, Way>[];
  private readonly known = new Map<number, Steps>();
  private readonly weights: readonly bigint[];

  constructor(private readonly card: Card, ranking: Ranking) {
    this.size = card.machines.reduce((all, { states }) => all * states.length, 1);
    this.ways = card.machines.map((machine) => waysOf(machine, card.symbols.length));
    this.weights = card.machines.map((_, machine) => 1n << (DIGIT * BigInt(ranking.length - 1 - ranking.indexOf(machine))));
  }

  cost(counts: Profile): bigint {
    return this.weights.reduce((sum, weight, machine) => sum + weight * BigInt(counts[machine]!), 0n);
  }

  /** What ending in a joint state costs; null where a machine does not end there. */
  ending(joint: number): bigint | null {
    let [cost, rest] = [0n, joint];
    for (const [machine, { states }] of this.card.machines.entries()) {
      const marks = states[rest % states.length]!.ending;
      if (marks === null) return null;
      cost += this.weights[machine]! * BigInt(marks);
      rest = Math.floor(rest / states.length);
    }
    return cost;
  }

  /** The steps from a joint state for an input; 0 is an insertion. */
  steps(joint: number, input: number): Steps {
    const key = joint * this.card.symbols.length + input;
    const found = this.known.get(key) ?? this.made(joint, input);
    this.known.set(key, found);
    return found;
  }

  private made(joint: number, input: number): Steps {
    const symbols = this.card.symbols.length;
    const steps: (Step | undefined)[] = Array.from({ length: symbols }, () => undefined);
    for (let output = input ? 0 : 1; output < symbols; output++) {
      let [to, base, cost, rest]: [number, number, bigint, number] = [0, 1, 0n, joint];
      let taken = true;
      for (const [machine, { states }] of this.card.machines.entries()) {
        const way = this.ways[machine]!.get(((rest % states.length) * symbols + input) * symbols + output);
        if (!way) {
          taken = false;
          break;
        }
        to += base * way.to;
        cost += this.weights[machine]! * BigInt(way.marks);
        base *= states.length;
        rest = Math.floor(rest / states.length);
      }
      if (taken) steps[output] = { to, cost };
    }
    return steps;
  }
}

interface Way {
  readonly to: number;
  readonly marks: number;
}

/** A machine's arcs by state, input and output. */
function waysOf(machine: Machine, symbols: number): Map<number, Way> {
  const ways = new Map<number, Way>();
  for (const arc of machine.arcs) {
    const outputs = symbolsOf(arc.outputs);
    for (const input of symbolsOf(arc.inputs)) {
      for (const output of outputs) {
        if ((input || output) && takes(arc, input, output)) ways.set((arc.from * symbols + input) * symbols + output, arc);
      }
    }
  }
  return ways;
}
