/** The sixteen calls of include/pastaspur.h, over WebAssembly. A refusal is thrown as Refused. */
import { ANSWER_BYTES, CARD_BYTES, MACHINES, ROWS, WEIGHTS_WORK_NUMBERS, WORK_NUMBERS } from "./limits";
import { Memory, Slice } from "./memory";
import { Refusal, Refused } from "./refusals";
import { Best, Candidate, Comparison, Condition, Evaluation, Judged, LiveRow, Pair, Place, Profile, Ranking, SymbolSet, Weighed, Word } from "./results";

type Call = (...words: (number | bigint)[]) => number;

const CALLS = [
  "optimize", "cull", "optimize_sets", "cull_sets", "optimize_weights", "evaluate", "judge", "read_part", "pack", "join",
  "compare", "condition", "find_ranking", "add_row", "remove_row", "leader",
] as const;
type CallName = typeof CALLS[number];

/** What a search is lent; less than is enough for tests of the refusals 9 and 12. `answer` holds after the call what was left in it. */
export interface Lent {
  readonly work?: number;
  readonly answer?: Uint8Array;
}

const ORDERS = { 1: "better", 2: "equal", 3: "worse" } as const;
const VERDICTS = { 1: "right", 2: "another row", 3: "not in the table" } as const;

export class Engine {
  private readonly calls: Record<CallName, Call>;
  private readonly memory: Memory;

  /** The engine of a compiled module. Calls do not overlap: each lays its input out anew. */
  constructor(module: WebAssembly.Module) {
    const { exports } = new WebAssembly.Instance(module, {});
    this.memory = new Memory(exports["memory"] as WebAssembly.Memory, (exports["__heap_base"] as WebAssembly.Global).value as number);
    this.calls = Object.fromEntries(CALLS.map((name) => [name, exports[`pastaspur_${name}`] as Call])) as Record<CallName, Call>;
  }

  static load(bytes: Uint8Array): Engine {
    return new Engine(new WebAssembly.Module(bytes));
  }

  /** The best candidate for a word under a ranking: refusals 1 to 10, 12. */
  optimize(card: Uint8Array, ranking: Ranking, word: Word, lent: Lent = {}): Best {
    return this.search("optimize", card, ranking, () => this.memory.put(word), lent);
  }

  /**
   * Many words under many rankings of one card: what is asked lies in memory once, and equal answers are one value. Between two of its
   * calls no other call of this engine may run: they lay their input over it.
   */
  searcher(card: Uint8Array, asked: readonly Word[]): (ranking: Ranking, word: number) => Best {
    const { memory } = this;
    const lent = memory.startWith(card);
    const order = memory.take(MACHINES);
    const placed = asked.map((word) => memory.put(word)).map(({ at, length }) => [at, BigInt(length)] as const);
    const [work, answer, result] = [memory.take(2 * WORK_NUMBERS).at, memory.take(ANSWER_BYTES).at, memory.take(16).at];
    const [cardLength, workLength, answerLength] = [BigInt(lent.length), BigInt(WORK_NUMBERS), BigInt(ANSWER_BYTES)];
    const [bytes, numbers] = [memory.bytes(0, result + 16), memory.shorts(result, 8)];
    const known = new Map<string, Best>();
    return (ranking, word) => {
      if (ranking.length > MACHINES) throw new Refused(Refusal.RANKING);
      bytes.set(ranking, order.at);
      const [at, length] = placed[word]!;
      const number = this.calls.optimize(lent.at, cardLength, order.at, BigInt(ranking.length), at, length, work, workLength, answer, answerLength, result);
      if (number) throw new Refused(number);
      const end = answer + 2 * numbers[MACHINES]!;
      let key = "";
      for (let place = 0; place < MACHINES; place++) key += String.fromCharCode(numbers[place]!);
      for (let place = answer; place < end; place++) key += String.fromCharCode(bytes[place]!);
      let best = known.get(key);
      if (!best) {
        const [counts, , wordLength] = evaluation(numbers);
        best = { counts, candidate: pairsOf(bytes.subarray(answer, end)), wordLength };
        known.set(key, best);
      }
      return best;
    };
  }

  /** The same by Ellison's cull. */
  cull(card: Uint8Array, ranking: Ranking, word: Word, lent: Lent = {}): Best {
    return this.search("cull", card, ranking, () => this.memory.put(word), lent);
  }

  /** The best candidate over all words with one symbol from each set: refusals 1 to 8, 25, 9, 10, 12. */
  optimizeSets(card: Uint8Array, ranking: Ranking, sets: readonly SymbolSet[], lent: Lent = {}): Best {
    return this.search("optimize_sets", card, ranking, () => this.memory.putLongs(sets), lent);
  }

  /** The same by Ellison's cull. */
  cullSets(card: Uint8Array, ranking: Ranking, sets: readonly SymbolSet[], lent: Lent = {}): Best {
    return this.search("cull_sets", card, ranking, () => this.memory.putLongs(sets), lent);
  }

  private search(name: CallName, card: Uint8Array, ranking: Ranking, asked: () => Slice, lent: Lent): Best {
    const { memory } = this;
    const given = [memory.startWith(card), memory.put(ranking), asked()];
    const numbers = lent.work ?? WORK_NUMBERS;
    const work = { at: memory.take(2 * numbers).at, length: numbers };
    const answer = this.answer(lent);
    const result = memory.take(16).at;
    this.run(name, lent.answer, answer, ...words(...given, work, answer), result);
    const [counts, pairs, wordLength] = evaluation(memory.shorts(result, 8));
    return { counts, candidate: pairsOf(memory.bytes(answer.at, 2 * pairs)), wordLength };
  }

  /** The best candidate by weights in thousandths, one for each machine in card order: refusals 1 to 6, 26, 8, 9, 10, 12. */
  optimizeWeights(card: Uint8Array, weights: readonly number[], word: Word, lent: Lent = {}): Weighed {
    const { memory } = this;
    const given = [memory.startWith(card), memory.putWords(weights), memory.put(word)];
    const numbers = lent.work ?? WEIGHTS_WORK_NUMBERS;
    const work = { at: memory.take(8 * numbers).at, length: numbers };
    const answer = this.answer(lent);
    const result = memory.take(72).at;
    this.run("optimize_weights", lent.answer, answer, ...words(...given, work, answer), result);
    const numbersOut = [...memory.longs(result, 9)];
    const [counts, pairs, wordLength] = evaluation(numbersOut.slice(0, 8).map(Number));
    return { counts, candidate: pairsOf(memory.bytes(answer.at, 2 * pairs)), wordLength, sum: numbersOut[8]! };
  }

  /** A candidate's profile: refusals 1 to 6, 13, 14. */
  evaluate(card: Uint8Array, candidate: Candidate): Evaluation {
    return this.evaluateBytes(card, candidate.flat());
  }

  evaluateBytes(card: Uint8Array, candidate: ArrayLike<number>): Evaluation {
    const { memory } = this;
    const given = [memory.startWith(card), memory.put(candidate)];
    const result = memory.take(16).at;
    this.run("evaluate", undefined, null, ...words(...given), result);
    const [counts, pairs, wordLength] = evaluation(memory.shorts(result, 8));
    return { counts, pairs, wordLength };
  }

  /** Whether a tableau is right: refusals 1 to 9, 19, 20, 21. */
  judge(card: Uint8Array, ranking: Ranking, word: Word, tableau: Uint8Array, lent: Lent = {}): Judged {
    const { memory } = this;
    const given = [memory.startWith(card), memory.put(ranking), memory.put(word)];
    const numbers = lent.work ?? WORK_NUMBERS;
    const work = { at: memory.take(2 * numbers).at, length: numbers };
    const sent = memory.put(tableau);
    const result = memory.take(2).at;
    this.run("judge", undefined, null, ...words(...given, work, sent), result);
    const [verdict, row] = memory.bytes(result, 2) as unknown as [keyof typeof VERDICTS, number];
    return { verdict: VERDICTS[verdict], row };
  }

  /** Where a machine's part is: refusals 1 to 6, 17. */
  readPart(card: Uint8Array, machine: number): Place {
    const lent = this.memory.startWith(card);
    const result = this.memory.take(16).at;
    this.run("read_part", undefined, null, ...words(lent), machine, result);
    const [offset, length] = this.memory.longs(result, 2);
    return { offset: Number(offset), length: Number(length) };
  }

  /** The card of some machines' parts: refusals 1, 3 to 6, 18 (17 cannot arise). */
  pack(symbols: number, parts: readonly Uint8Array[], target?: Uint8Array): Uint8Array {
    const joined = new Uint8Array(parts.reduce((sum, part) => sum + part.length, 0));
    parts.reduce((at, part) => (joined.set(part, at), at + part.length), 0);
    return this.packJoined(symbols, parts.map((part) => part.length), joined, target);
  }

  /** The card of parts that are joined, with their lengths: refusals 1, 17, 3 to 6, 18. */
  packJoined(symbols: number, lengths: readonly number[], parts: Uint8Array, target?: Uint8Array): Uint8Array {
    const { memory } = this;
    memory.start();
    const given = [memory.putShorts(lengths), memory.put(parts)];
    return this.written("pack", target, (made, result) => [symbols, ...words(...given, made), result]);
  }

  /** The card with two of its machines joined: refusals 1 to 6, 27, 28, 18. */
  join(card: Uint8Array, first: number, second: number, target?: Uint8Array): Uint8Array {
    const lent = this.memory.startWith(card);
    return this.written("join", target, (made, result) => [...words(lent), first, second, ...words(made), result]);
  }

  private written(name: CallName, target: Uint8Array | undefined, asked: (made: Slice, result: number) => (number | bigint)[]): Uint8Array {
    const { memory } = this;
    const made = target ? memory.put(target) : memory.take(CARD_BYTES);
    const result = memory.take(8).at;
    this.run(name, target, made, ...asked(made, result));
    return memory.bytes(made.at, Number(memory.longs(result, 1)[0])).slice();
  }

  /** How the first profile stands to the second under a ranking: refusals 1, 7. */
  compare(machines: number, ranking: Ranking, first: Profile, second: Profile): Comparison {
    const { memory } = this;
    memory.start();
    const given = [machines, ...words(memory.put(ranking)), this.profile(first), this.profile(second)];
    const result = memory.take(2).at;
    this.run("compare", undefined, null, ...given, result);
    const [order, machine] = memory.bytes(result, 2) as unknown as [keyof typeof ORDERS, number];
    return { order: ORDERS[order], machine: ORDERS[order] === "equal" ? null : machine };
  }

  /** The condition under which the first profile is not worse than the second: refusal 1. */
  condition(machines: number, first: Profile, second: Profile): Condition {
    const { memory } = this;
    memory.start();
    const given = [machines, this.profile(first), this.profile(second)];
    const result = memory.take(2).at;
    this.run("condition", undefined, null, ...given, result);
    const [fewer, more] = memory.bytes(result, 2) as unknown as [number, number];
    return { fewer, more };
  }

  /** The smallest ranking that fits every condition: refusals 1, 15, 16. */
  findRanking(machines: number, conditions: readonly Condition[]): Ranking {
    return this.findRankingBytes(machines, conditions.flatMap(({ fewer, more }) => [fewer, more]));
  }

  /** The same for a list of byte pairs, W before L. */
  findRankingBytes(machines: number, conditions: ArrayLike<number>): Ranking {
    const { memory } = this;
    memory.start();
    const given = memory.put(conditions);
    const result = memory.take(MACHINES).at;
    this.run("find_ranking", undefined, null, machines, ...words(given), result);
    return [...memory.bytes(result, machines)];
  }

  /** Adds a row behind the others of a live tableau, and answers all of them: refusals 1, 7, 23, 24. */
  addRow(machines: number, ranking: Ranking, rows: readonly LiveRow[], row: LiveRow, room = ROWS): LiveRow[] {
    const { memory } = this;
    memory.start();
    const [given, list] = this.live(machines, ranking, rows, room);
    const added = memory.putShorts(rowNumbers(row)).at;
    const result = memory.take(8).at;
    this.run("add_row", undefined, null, ...given, added, result);
    return this.liveRows(list, Number(memory.longs(result, 1)[0]));
  }

  /** Takes out the first row that has the id, and answers the rest: refusals 1, 7, 23, 24. */
  removeRow(machines: number, ranking: Ranking, rows: readonly LiveRow[], id: number, room = ROWS): LiveRow[] {
    const { memory } = this;
    memory.start();
    const [given, list] = this.live(machines, ranking, rows, room);
    const result = memory.take(8).at;
    this.run("remove_row", undefined, null, ...given, id, result);
    return this.liveRows(list, Number(memory.longs(result, 1)[0]));
  }

  /** The row with the best profile, the earliest arrival among equals, null in an empty table: refusals 1, 7, 23. */
  leader(machines: number, ranking: Ranking, rows: readonly LiveRow[], room = ROWS): LiveRow | null {
    const { memory } = this;
    memory.start();
    const [given] = this.live(machines, ranking, rows, room);
    const result = memory.take(16).at;
    this.run("leader", undefined, null, ...given, result);
    const [any, id, ...counts] = memory.shorts(result, 8);
    return any ? { id: id!, counts } : null;
  }

  private live(machines: number, ranking: Ranking, rows: readonly LiveRow[], room: number): [(number | bigint)[], number] {
    const { memory } = this;
    const order = memory.put(ranking);
    const numbers = new Uint16Array(7 * Math.max(room, rows.length));
    rows.forEach((row, at) => numbers.set(rowNumbers(row), 7 * at));
    const list = memory.putShorts(numbers).at;
    return [[machines, ...words(order), BigInt(rows.length), list, BigInt(room)], list];
  }

  private liveRows(list: number, count: number): LiveRow[] {
    return Array.from({ length: count }, (_, at) => {
      const [id, ...counts] = this.memory.shorts(list + 14 * at, 7);
      return { id: id!, counts };
    });
  }

  private answer(lent: Lent): Slice {
    return lent.answer ? this.memory.put(lent.answer) : this.memory.take(ANSWER_BYTES);
  }

  private profile(counts: Profile): number {
    return this.memory.putShorts([...counts, 0, 0, 0, 0, 0, 0].slice(0, MACHINES)).at;
  }

  /** Runs a call; what it was lent to write to is copied back, also where it refuses. */
  private run(name: CallName, lent: Uint8Array | undefined, slice: Slice | null, ...given: (number | bigint)[]): void {
    const number = this.calls[name](...given);
    if (lent && slice) lent.set(this.memory.bytes(slice.at, slice.length));
    if (number) throw new Refused(number);
  }
}

/** Slices as the calls take them: a pointer, and a length of 64 bits. */
function words(...slices: Slice[]): (number | bigint)[] {
  return slices.flatMap(({ at, length }) => [at, BigInt(length)]);
}

function evaluation(numbers: ArrayLike<number>): [counts: number[], pairs: number, wordLength: number] {
  return [Array.from({ length: MACHINES }, (_, at) => numbers[at]!), numbers[MACHINES]!, numbers[MACHINES + 1]!];
}

function rowNumbers({ id, counts }: LiveRow): number[] {
  return [id, ...Array.from({ length: MACHINES }, (_, at) => counts[at] ?? 0)];
}

export function pairsOf(bytes: ArrayLike<number>): Pair[] {
  return Array.from({ length: bytes.length >> 1 }, (_, at) => [bytes[2 * at]!, bytes[2 * at + 1]!] as const);
}
