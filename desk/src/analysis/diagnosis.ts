/**
 * Where a refused card is refused: which byte, machine, state or arcs.
 *
 * The refusal's number is the engine's. So is the machine that meets it, and its arcs: a part by itself, or with some of its arcs
 * alone, is packed, and refused where they are at fault.
 */
import { Engine } from "../engine/engine";
import { Refused } from "../engine/refusals";
import { KINDS, machineOf, symbolsOf, takes } from "../model/machine";

const ARC_BYTES = 20;

function refusalOf(call: () => unknown): number {
  try {
    call();
    return 0;
  } catch (error) {
    if (error instanceof Refused) return error.number;
    throw error;
  }
}

/** The number of a card's refusal, 0 where it is accepted. */
export function refusal(engine: Engine, card: Uint8Array): number {
  return refusalOf(() => engine.readPart(card, 0));
}

/** Where a card meets its refusal. */
export function whereRefused(engine: Engine, card: Uint8Array, number: number): string {
  const view = new DataView(card.buffer, card.byteOffset, card.byteLength);
  if (number === 1) return inCounts(card);
  if (number === 2) return inTable(card, view);
  const places = Array.from({ length: card[0]! }, (_, machine) => [view.getUint16(2 + 4 * machine, true), view.getUint16(4 + 4 * machine, true)] as const);
  const parts = places.map(([offset, length]) => card.subarray(offset, offset + length));
  if (number === 6) return `the machines have ${parts.map((part) => part[0]).join(" * ")} states`;
  const packed = (part: Uint8Array) => refusalOf(() => engine.pack(card[1]!, [part]));
  const machine = parts.findIndex((part) => packed(part) === number);
  const [part, offset] = [parts[machine]!, places[machine]![0]];
  const place = number === 3 ? inSize(part, offset) : number === 4 ? inContents(card[1]!, part, offset, packed) : inArcs(part, offset, packed);
  return `machine ${machine}, ${place}`;
}

function inCounts(card: Uint8Array): string {
  if (card.length < 2) return `the card has ${card.length} bytes`;
  if (card[0]! < 1 || card[0]! > 6) return `byte 0, the machine count, is ${card[0]}`;
  return `byte 1, the symbol count, is ${card[1]}`;
}

function inTable(card: Uint8Array, view: DataView): string {
  const table = 2 + 4 * card[0]!;
  if (card.length < table) return `the card has ${card.length} bytes, its table ends at ${table}`;
  let end = table;
  for (let machine = 0; machine < card[0]!; machine++) {
    const at = 2 + 4 * machine;
    const offset = view.getUint16(at, true);
    if (offset !== end) return `byte ${at}, the offset of machine ${machine}, is ${offset} where ${end} is due`;
    end += view.getUint16(at + 2, true);
  }
  return `the last part ends at byte ${end}, the card has ${card.length} bytes`;
}

function inSize(part: Uint8Array, offset: number): string {
  if (part.length < 2) return `byte ${offset}: its part has ${part.length} bytes`;
  const [states, arcs] = [part[0]!, part[1]!];
  if (states < 1 || states > 32) return `byte ${offset}, its state count, is ${states}`;
  return `byte ${offset}: its part has ${part.length} bytes, its ${states} states and ${arcs} arcs take ${2 + states + ARC_BYTES * arcs}`;
}

function inContents(symbols: number, part: Uint8Array, offset: number, packed: (part: Uint8Array) => number): string {
  const [states, arcs] = [part[0]!, part[1]!];
  for (let state = 0; state < states; state++) {
    if (part[2 + state]! > 16) return `state ${state}, byte ${offset + 2 + state}: its state byte is ${part[2 + state]}`;
  }
  for (let arc = 0; arc < arcs; arc++) {
    if (!packed(withArcs(part, [arc]))) continue;
    const at = 2 + states + ARC_BYTES * arc;
    const [from, to, marks, kind] = part.subarray(at, at + 4) as unknown as [number, number, number, number];
    const { inputs, outputs } = machineOf(withArcs(part, [arc]), "").arcs[0]!;
    const over = (bits: bigint) => bits >> BigInt(symbols + 1) !== 0n;
    const last = (bits: bigint) => symbolsOf(bits).pop();
    const faults: [number, boolean, string][] = [
      [0, from >= states, `its first state is ${from}, the machine has ${states}`],
      [1, to >= states, `its second state is ${to}, the machine has ${states}`],
      [2, marks > 15, `its marks are ${marks}`],
      [3, kind >= KINDS.length, `its kind is ${kind}`],
      [4, inputs === 0n, "its in set is empty"],
      [4, over(inputs), `its in set has the symbol ${last(inputs)}`],
      [12, outputs === 0n, "its out set is empty"],
      [12, over(outputs), `its out set has the symbol ${last(outputs)}`],
    ];
    const [byte, , reason] = faults.find(([, fault]) => fault)!;
    return `arc ${arc}, byte ${offset + at + byte}: ${reason}`;
  }
  throw new Error("no state and no arc is refused by itself");
}

function inArcs(part: Uint8Array, offset: number, packed: (part: Uint8Array) => number): string {
  const states = part[0]!;
  const { arcs } = machineOf(part, "");
  for (const [one, first] of arcs.entries()) {
    for (const [two, second] of arcs.entries()) {
      if (two <= one || first.from !== second.from || !packed(withArcs(part, [one, two]))) continue;
      for (const input of symbolsOf(first.inputs & second.inputs)) {
        for (const output of symbolsOf(first.outputs & second.outputs)) {
          if (!(input || output) || !takes(first, input, output) || !takes(second, input, output)) continue;
          const places = [one, two].map((arc) => `byte ${offset + 2 + states + ARC_BYTES * arc}`).join(" and ");
          return `state ${first.from}, arcs ${one} and ${two} (${places}): both take ${input}:${output}`;
        }
      }
    }
  }
  throw new Error("no two arcs are refused by themselves");
}

/** A part with some of its arcs alone, and every state as it is. */
function withArcs(part: Uint8Array, arcs: readonly number[]): Uint8Array {
  const head = 2 + part[0]!;
  const bytes = arcs.flatMap((arc) => [...part.subarray(head + ARC_BYTES * arc, head + ARC_BYTES * (arc + 1))]);
  return Uint8Array.from([part[0]!, arcs.length, ...part.subarray(2, head), ...bytes]);
}
