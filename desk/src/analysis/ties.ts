/**
 * The forms that tie with the best: other outputs with its profile. They are found on the product of the machines; that each is one the
 * engine says, by its evaluation.
 *
 * A node is a joint state and a place in the word. Every part of a best candidate is a best way to its node, so the candidates with the
 * best profile are the ways from the start to an end over tight steps alone: those by which the least cost of a node comes about.
 */
import { Engine } from "../engine/engine";
import { Ranking, Word } from "../engine/results";
import { Card, formOf, keyOf, same } from "../model/card";
import { counted } from "../model/badInput";
import { aligned } from "./aligning";
import { Product } from "./product";
import { Evaluated } from "./tableau";
import { Task } from "./task";

/** So many ties are listed. */
export const MOST_TIES = 24;
/** So many nodes are looked at before a list is cut. */
const MOST_LOOKS = 200000;

export interface Ties {
  /** A candidate for each form, its best alignment: the shortest forms first. */
  readonly rows: readonly Evaluated[];
  /** Whether there may be others that pass no node twice: the list was cut. */
  readonly cut: boolean;
  /** Whether a loop of insertions without marks makes endlessly many: of these, the ones that pass a node twice are left out. */
  readonly endless: boolean;
}

export const NO_TIES: Ties = { rows: [], cut: false, endless: false };

/** What is to be said of ties that are not listed; empty where all are. */
export function tiesLeftOut({ rows, cut, endless }: Ties): string {
  const said = [];
  if (cut) said.push(`more forms tie than the ${counted(rows.length, "form")} listed`);
  if (endless) said.push("insertions without marks make endlessly many forms that tie: those that go round a loop again are left out");
  return said.join("; ");
}

interface Move {
  readonly output: number;
  readonly to: number;
}

/** The tight steps between the nodes that lie on a way to an end. */
interface Tight {
  readonly size: number;
  readonly moves: readonly (readonly Move[] | undefined)[];
  readonly ends: ReadonlySet<number>;
  /** Nodes that insertions lead back to. */
  readonly loops: ReadonlySet<number>;
  /** The fewest outputs from a node to an end. */
  readonly left: readonly number[];
}

export function* tiesOf(engine: Engine, card: Card, ranking: Ranking, word: Word, best: Evaluated): Task<Ties> {
  const product = new Product(card, ranking);
  const tight = yield* tightSteps(product, word, product.cost(best.counts));
  const { forms, cut } = yield* formsOf(tight, formOf(best.candidate));
  const rows = forms.map((form): Evaluated => {
    const candidate = aligned(product, word, form, (place, joint) => tight.left[place * tight.size + joint]! < Infinity)!;
    const { counts } = engine.evaluate(card.bytes, candidate);
    if (!same(counts, best.counts)) throw new Error(`${keyOf(candidate)} has the profile ${counts.join()}, the best has ${best.counts.join()}`);
    return { candidate, counts };
  });
  return { rows, cut, endless: tight.loops.size > 0 };
}

function* tightSteps(product: Product, word: Word, best: bigint): Task<Tight> {
  const { size } = product;
  const last = word.length;
  const least = yield* leastCosts(product, word);
  const ends = new Set<number>();
  for (let joint = 0; joint < size; joint++) {
    const [cost, end] = [least[last * size + joint], product.ending(joint)];
    if (cost === undefined || end === null) continue;
    if (cost + end < best) throw new Error("the machines have a better candidate than the engine's best");
    if (cost + end === best) ends.add(last * size + joint);
  }
  if (!ends.size) throw new Error("the engine's best is no candidate of the machines");
  const moves: Move[][] = Array.from({ length: least.length });
  const left: number[] = Array.from({ length: least.length }, () => Infinity);
  const loops = new Set<number>();
  for (let place = last; place >= 0; place--) {
    yield { done: 2 * last + 1 - place, of: 2 * last + 2, what: "places" };
    const nodes = Array.from({ length: size }, (_, joint) => place * size + joint).filter((node) => least[node] !== undefined);
    const all = new Map(nodes.map((node) => [node, tightMoves(product, word, least, node)] as const));
    for (const node of nodes) if (ends.has(node)) left[node] = 0;
    // Outputs left, until nothing changes: insertions stay at the place.
    for (let changed = true; changed; ) {
      changed = false;
      for (const [node, ways] of all) {
        for (const { output, to } of ways) {
          const length = left[to]! + (output ? 1 : 0);
          if (length < left[node]!) [left[node], changed] = [length, true];
        }
      }
    }
    const useful = nodes.filter((node) => left[node]! < Infinity);
    for (const node of useful) moves[node] = all.get(node)!.filter(({ to }) => left[to]! < Infinity);
    for (const node of useful) if (comesBack(moves, node, place * size, (place + 1) * size)) loops.add(node);
  }
  return { size, moves, ends, loops, left };
}

function tightMoves(product: Product, word: Word, least: readonly (bigint | undefined)[], node: number): Move[] {
  const { size } = product;
  const [place, joint] = [Math.floor(node / size), node % size];
  const moves: Move[] = [];
  const add = (input: number, start: number) =>
    product.steps(joint, input).forEach((step, output) => {
      if (step && least[start + step.to] === least[node]! + step.cost) moves.push({ output, to: start + step.to });
    });
  add(0, place * size);
  if (place < word.length) add(word[place]!, (place + 1) * size);
  return moves;
}

/** Whether steps within a place lead from a node back to it. */
function comesBack(moves: readonly (readonly Move[] | undefined)[], node: number, from: number, below: number): boolean {
  const seen = new Set<number>();
  const open = [node];
  for (let at = open.pop(); at !== undefined; at = open.pop()) {
    for (const { to } of moves[at] ?? []) {
      if (to === node) return true;
      if (to < from || to >= below || seen.has(to)) continue;
      seen.add(to);
      open.push(to);
    }
  }
  return false;
}

/** The least cost to each node, place by place; within a place, over insertions, the nearest node first. */
function* leastCosts(product: Product, word: Word): Task<(bigint | undefined)[]> {
  const { size } = product;
  const least: (bigint | undefined)[] = Array.from({ length: (word.length + 1) * size }, () => undefined);
  least[0] = 0n;
  for (let place = 0; place <= word.length; place++) {
    yield { done: place, of: 2 * word.length + 2, what: "places" };
    const relax = (joint: number, input: number, start: number) => {
      const cost = least[place * size + joint]!;
      for (const step of product.steps(joint, input)) {
        if (!step) continue;
        const [node, sum] = [start + step.to, cost + step.cost];
        if (least[node] === undefined || sum < least[node]!) least[node] = sum;
      }
    };
    const settled = new Set<number>();
    for (;;) {
      let nearest = -1;
      for (let joint = 0; joint < size; joint++) {
        const cost = least[place * size + joint];
        if (cost !== undefined && !settled.has(joint) && (nearest < 0 || cost < least[place * size + nearest]!)) nearest = joint;
      }
      if (nearest < 0) break;
      settled.add(nearest);
      relax(nearest, 0, place * size);
    }
    if (place < word.length) for (const joint of settled) relax(joint, word[place]!, (place + 1) * size);
  }
  return least;
}

/** A node that a form's beginning leads to, and the loop nodes of its place that were passed on the way. */
interface Reached {
  readonly node: number;
  readonly passed: readonly number[];
}

/** A form's beginning. */
interface Beginning {
  readonly form: readonly number[];
  readonly reached: readonly Reached[];
}

/**
 * The forms of the ways that pass no node twice, without one of them: the shortest first, then by their symbols. Each beginning is
 * followed by all its ways at once, so a form with many alignments is met once.
 */
function* formsOf(tight: Tight, without: Word): Task<{ forms: Word[]; cut: boolean }> {
  const { moves, ends, left } = tight;
  const forms: Word[] = [];
  /** Beginnings by the length of the shortest form that they may come to. */
  const open: Beginning[][] = [];
  let looks = 0;
  const put = (form: readonly number[], reached: readonly Reached[]) => {
    const whole = closed(tight, reached);
    looks += whole.length;
    const length = form.length + Math.min(...whole.map(({ node }) => left[node]!));
    (open[length] ??= []).push({ form, reached: whole });
  };
  put([], [entered(tight, 0, [])!]);
  for (let length = 0; length < open.length; length++) {
    for (let next = open[length]?.pop(); next; next = open[length]!.pop()) {
      if (looks > MOST_LOOKS) return { forms, cut: true };
      yield { done: forms.length, of: MOST_TIES, what: "ties" };
      const { form, reached } = next;
      if (form.length === length && reached.some(({ node }) => ends.has(node)) && !same(form, without)) {
        if (forms.length === MOST_TIES) return { forms, cut: true };
        forms.push(form);
      }
      const following = new Map<number, Map<string, Reached>>();
      for (const from of reached) {
        for (const { output, to } of moves[from.node]!) {
          const into = output ? entered(tight, to, samePlace(tight, from.node, to) ? from.passed : []) : null;
          if (!into) continue;
          if (!following.has(output)) following.set(output, new Map());
          following.get(output)!.set(keyOf(into), into);
        }
      }
      // The last one put is taken first.
      for (const [output, into] of [...following].sort(([one], [two]) => two - one)) put([...form, output], [...into.values()]);
    }
  }
  return { forms, cut: false };
}

const samePlace = ({ size }: Tight, one: number, two: number): boolean => Math.floor(one / size) === Math.floor(two / size);

/** A node that is entered; null where it was passed before. */
function entered({ loops }: Tight, node: number, passed: readonly number[]): Reached | null {
  if (!loops.has(node)) return { node, passed };
  return passed.includes(node) ? null : { node, passed: [...passed, node].sort((one, two) => one - two) };
}

/** With what deletions lead to. */
function closed(tight: Tight, reached: readonly Reached[]): Reached[] {
  const found = new Map(reached.map((each) => [keyOf(each), each]));
  for (const { node } of found.values()) {
    for (const { output, to } of tight.moves[node]!) {
      const into = output ? null : entered(tight, to, [])!;
      if (into && !found.has(keyOf(into))) found.set(keyOf(into), into);
    }
  }
  return [...found.values()];
}
