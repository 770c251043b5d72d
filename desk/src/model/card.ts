/** A card with its names, and what its author says beside the machines. Plain data, which a worker can be sent. */
import { Engine } from "../engine/engine";
import { Candidate, Profile, Ranking, SymbolSet, Word } from "../engine/results";
import { Machine, machineOf, marked, partOf, setOf, symbolsOf } from "./machine";

export const EMPTY = "0";

/** A name for several symbols. */
export interface NamedSet {
  readonly name: string;
  readonly symbols: readonly number[];
}

/** A ranking and a word: a line of the board's input. */
export interface Line {
  readonly ranking: Ranking;
  readonly word: Word;
}

export interface ClaimedRow {
  readonly claimed: boolean;
  readonly candidate: Candidate;
  /** In card order, as many as there are machines. */
  readonly counts: readonly number[];
}

/** A tableau that is sent to be judged, and the verdict that its author expects. */
export interface Claim extends Line {
  readonly rows: readonly ClaimedRow[];
  readonly verdict: string;
  /** Whether it is a line of the board's input, too: a tableau of card.txt, not a claim. */
  readonly asked: boolean;
}

/** The best forms that some ranking gives a word: the output (empty for none) and its counts in card order. */
export interface Winners {
  readonly word: Word;
  readonly forms: readonly { readonly form: string; readonly counts: readonly number[] }[];
}

export interface Card {
  readonly title: string;
  /** Names of the symbols: that of symbol n is at n, and the empty symbol's, `0`, is at 0. */
  readonly symbols: readonly string[];
  readonly sets: readonly NamedSet[];
  readonly machines: readonly Machine[];
  readonly lines: readonly Line[];
  readonly claims: readonly Claim[];
  readonly winners: readonly Winners[];
  /** Whether the names are an author's, and not numbers. */
  readonly named: boolean;
  /** card.bin, as the engine takes it. Never changed in place. */
  readonly bytes: Uint8Array;
}

/** Two bytes, a table with each part's offset and length, and the parts: a card, or a tableau. */
export function laidOut(head: readonly [number, number], parts: readonly Uint8Array[]): Uint8Array {
  const table = 2 + 4 * parts.length;
  const bytes = new Uint8Array(parts.reduce((sum, part) => sum + part.length, table));
  const view = new DataView(bytes.buffer);
  bytes.set(head);
  let offset = table;
  parts.forEach((part, number) => {
    view.setUint16(2 + 4 * number, offset, true);
    view.setUint16(4 + 4 * number, part.length, true);
    bytes.set(part, offset);
    offset += part.length;
  });
  return bytes;
}

/** card.bin of some machines. Whether it is accepted the engine says. */
export function cardBytes(symbolCount: number, machines: readonly Machine[]): Uint8Array {
  return laidOut([machines.length, symbolCount], machines.map(partOf));
}

/** The machines of a card's bytes, by their parts' places as the engine reads them: refusals 1 to 6. */
export function machinesOf(engine: Engine, bytes: Uint8Array): Machine[] {
  return Array.from({ length: bytes.length ? Math.max(1, bytes[0]!) : 1 }, (_, number) => {
    const { offset, length } = engine.readPart(bytes, number);
    return machineOf(bytes.subarray(offset, offset + length), String(number));
  });
}

/** A card without names: numbers stand for them. */
export function numbered(title: string, bytes: Uint8Array, machines: readonly Machine[], lines: readonly Line[] = []): Card {
  const symbols = Array.from({ length: bytes[1]! + 1 }, (_, symbol) => String(symbol));
  return { title, symbols, sets: [], machines, lines, claims: [], winners: [], named: false, bytes };
}

/** The bytes of a claimed tableau. */
export function tableauBytes(rows: readonly ClaimedRow[]): Uint8Array {
  const parts = rows.map(({ candidate, counts }) => {
    const part = new Uint8Array(12 + 2 * candidate.length);
    const view = new DataView(part.buffer);
    counts.forEach((count, machine) => view.setUint16(2 * machine, count, true));
    part.set(candidate.flat(), 12);
    return part;
  });
  return laidOut([rows.length, Math.max(0, rows.findIndex(({ claimed }) => claimed))], parts);
}

/** The words of a card's lines, each once. */
export function wordsOf(card: Card): Word[] {
  return distinct(card.lines.map(({ word }) => word));
}

/** The candidates for a word in the card's right tableaux, each once. */
export function listedFor(card: Card, word: Word): Candidate[] {
  const right = card.claims.filter((claim) => claim.verdict === "right" && same(claim.word, word));
  return distinct(right.flatMap((claim) => claim.rows.map(({ candidate }) => candidate)));
}

/** The counts of the card's machines alone. */
export function countsOf(card: Card, profile: Profile): number[] {
  return profile.slice(0, card.machines.length);
}

/** A set by its name, with the empty symbol before it where it is all that is added, else its symbols. */
export function setName(card: Card, bits: SymbolSet): string {
  const named = (wanted: SymbolSet) => card.sets.find(({ symbols }) => setOf(symbols) === wanted)?.name;
  const whole = named(bits);
  if (whole !== undefined) return whole;
  const rest = bits & 1n ? named(bits - 1n) : undefined;
  if (rest !== undefined) return `${EMPTY},${rest}`;
  return symbolsOf(bits).map((symbol) => card.symbols[symbol]).join(",");
}

/** All rankings, the smallest first. */
export function allRankings(machines: number): Ranking[] {
  const grown = (taken: readonly number[]): number[][] =>
    taken.length === machines
      ? [[...taken]]
      : Array.from({ length: machines }, (_, machine) => machine).filter((machine) => !taken.includes(machine)).flatMap((machine) => grown([...taken, machine]));
  return grown([]);
}

/** The machines that have marks. The others take no part: wherever they are ranked, every answer is the same. */
export function rankedMachines(card: Card): number[] {
  return card.machines.flatMap((machine, number) => (marked(machine) ? [number] : []));
}

/** The smallest of the rankings that differ from one only in the places of machines without marks. */
export function essential(card: Card, ranking: Ranking): Ranking {
  const partaking = rankedMachines(card);
  const idle = card.machines.map((_, machine) => machine).filter((machine) => !partaking.includes(machine));
  const ranked = ranking.filter((machine) => partaking.includes(machine));
  const order: number[] = [];
  while (ranked.length || idle.length) order.push((ranked[0] ?? Infinity) < (idle[0] ?? Infinity) ? ranked.shift()! : idle.shift()!);
  return order;
}

/** The rankings of the machines with marks, the smallest first: the others stand where they make a ranking the smallest. */
export function essentialRankings(card: Card): Ranking[] {
  return allRankings(card.machines.length).filter((ranking) => same(ranking, essential(card, ranking)));
}

/** The word that a candidate spells: its in symbols. */
export function spelledBy(candidate: Candidate): Word {
  return candidate.map(([input]) => input).filter((symbol) => symbol);
}

/** What a candidate is pronounced as: its out symbols. */
export function formOf(candidate: Candidate): Word {
  return candidate.map(([, output]) => output).filter((symbol) => symbol);
}

/** A value as a key: equal for equal words, rankings and candidates. */
export function keyOf(value: unknown): string {
  return JSON.stringify(value);
}

export function same(one: unknown, two: unknown): boolean {
  return keyOf(one) === keyOf(two);
}

/** The values, each once, in the order of their first places. */
export function distinct<T>(values: Iterable<T>): T[] {
  const found = new Map<string, T>();
  for (const value of values) {
    const key = keyOf(value);
    if (!found.has(key)) found.set(key, value);
  }
  return [...found.values()];
}
