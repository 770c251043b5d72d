/** Machines: states, arcs, and the pairs that arcs take. A part is a machine's bytes in a card. */
import { Candidate, SymbolSet } from "../engine/results";

export const KINDS = ["any", "same", "different"] as const;
/** `same` takes only pairs with in equal to out, `different` the others. */
export type Kind = typeof KINDS[number];

export interface Arc {
  readonly from: number;
  readonly to: number;
  readonly marks: number;
  readonly kind: Kind;
  readonly inputs: SymbolSet;
  readonly outputs: SymbolSet;
}

export interface State {
  readonly name: string;
  /** Marks for ending in the state; null where a candidate does not end in it. */
  readonly ending: number | null;
}

/** A constraint. The first state is the start. */
export interface Machine {
  readonly name: string;
  readonly states: readonly State[];
  readonly arcs: readonly Arc[];
}

const ARC_BYTES = 20;

export function setOf(symbols: Iterable<number>): SymbolSet {
  let bits = 0n;
  for (const symbol of symbols) bits |= 1n << BigInt(symbol);
  return bits;
}

export function symbolsOf(bits: SymbolSet): number[] {
  const symbols: number[] = [];
  for (let symbol = 0; bits >> BigInt(symbol); symbol++) if (has(bits, symbol)) symbols.push(symbol);
  return symbols;
}

export function has(bits: SymbolSet, symbol: number): boolean {
  return (bits >> BigInt(symbol) & 1n) === 1n;
}

export function takes(arc: Arc, input: number, output: number): boolean {
  return has(arc.inputs, input) && has(arc.outputs, output) && (arc.kind === "any" || (arc.kind === "same") === (input === output));
}

/** A pair that both arcs take, or null. An arc and itself give the first pair that it takes; 0:0 is no pair. */
export function commonPair(one: Arc, two: Arc): readonly [number, number] | null {
  for (const input of symbolsOf(one.inputs & two.inputs)) {
    for (const output of symbolsOf(one.outputs & two.outputs)) {
      if ((input || output) && takes(one, input, output) && takes(two, input, output)) return [input, output];
    }
  }
  return null;
}

/** Whether a machine has marks at all. One without them takes no part in a ranking. */
export function marked(machine: Machine): boolean {
  return machine.arcs.some((arc) => arc.marks) || machine.states.some((state) => state.ending);
}

/** The arcs that a complete candidate travels, in turn, by their numbers. */
export function travelled(machine: Machine, candidate: Candidate): number[] {
  let state = 0;
  return candidate.map(([input, output]) => {
    const number = machine.arcs.findIndex((arc) => arc.from === state && takes(arc, input, output));
    if (number < 0) throw new Error(`${machine.name}: no arc of state ${state} takes ${input}:${output}`);
    state = machine.arcs[number]!.to;
    return number;
  });
}

/** A machine's part of a card. */
export function partOf(machine: Machine): Uint8Array {
  const head = 2 + machine.states.length;
  const part = new Uint8Array(head + ARC_BYTES * machine.arcs.length);
  const view = new DataView(part.buffer);
  part.set([machine.states.length, machine.arcs.length, ...machine.states.map(({ ending }) => (ending === null ? 0 : ending + 1))]);
  machine.arcs.forEach((arc, number) => {
    const at = head + ARC_BYTES * number;
    part.set([arc.from, arc.to, arc.marks, KINDS.indexOf(arc.kind)], at);
    view.setBigUint64(at + 4, arc.inputs, true);
    view.setBigUint64(at + 12, arc.outputs, true);
  });
  return part;
}

/** The machine of a part that the engine has accepted; its states are named by their numbers. */
export function machineOf(part: Uint8Array, name: string, stateNames?: readonly string[]): Machine {
  const view = new DataView(part.buffer, part.byteOffset, part.byteLength);
  const [stateCount, arcCount] = [part[0]!, part[1]!];
  const states = Array.from({ length: stateCount }, (_, state) => {
    const byte = part[2 + state]!;
    return { name: stateNames?.[state] ?? String(state), ending: byte ? byte - 1 : null };
  });
  const arcs = Array.from({ length: arcCount }, (_, number): Arc => {
    const at = 2 + stateCount + ARC_BYTES * number;
    return {
      from: part[at]!,
      to: part[at + 1]!,
      marks: part[at + 2]!,
      kind: KINDS[part[at + 3]!]!,
      inputs: view.getBigUint64(at + 4, true),
      outputs: view.getBigUint64(at + 12, true),
    };
  });
  return { name, states, arcs };
}
