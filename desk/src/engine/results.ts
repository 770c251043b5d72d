/** What the calls take and answer, as plain values that can be copied between the page and its worker. */

/** A pair of what goes in and what comes out; 0 is the empty symbol, and 0:0 is no pair. */
export type Pair = readonly [input: number, output: number];
/** A candidate: its pairs in order. */
export type Candidate = readonly Pair[];
/** A word: symbols of 1 to S. */
export type Word = readonly number[];
/** A ranking: each machine's number once, the highest ranked first. */
export type Ranking = readonly number[];
/** Six counts of marks in card order; the unused places are 0. */
export type Profile = readonly number[];
/** A set of symbols: bit n is symbol n. */
export type SymbolSet = bigint;

export interface Evaluation {
  readonly counts: Profile;
  readonly pairs: number;
  readonly wordLength: number;
}

/** The best candidate. */
export interface Best {
  readonly counts: Profile;
  readonly candidate: Candidate;
  readonly wordLength: number;
}

/** The best candidate by weights, with its sum of weight times count in thousandths. */
export interface Weighed extends Best {
  readonly sum: bigint;
}

/** How a profile stands to another, and the machine that decided, null where they are equal. */
export interface Comparison {
  readonly order: "better" | "equal" | "worse";
  readonly machine: number | null;
}

/** The machines where the first profile has fewer, W, and where it has more, L, as bits: bit i is machine i. */
export interface Condition {
  readonly fewer: number;
  readonly more: number;
}

/** The verdict on a tableau; `row` is the first one that wins where it is another than the claimed one. */
export interface Judged {
  readonly verdict: "right" | "another row" | "not in the table";
  readonly row: number;
}

/** Where a machine's part is in a card, in bytes. */
export interface Place {
  readonly offset: number;
  readonly length: number;
}

/** A row of a live tableau. */
export interface LiveRow {
  readonly id: number;
  readonly counts: Profile;
}
