/** The refusals: each number's name and reason, and the error that carries one. */

const REFUSALS: Readonly<Record<number, readonly [name: string, reason: string]>> = {
  1: ["counts", "the card has under 2 bytes, its machine count is not 1 to 6 or its symbol count not 1 to 63"],
  2: ["layout", "the card's table of offsets and lengths is not as laid down"],
  3: ["part length", "a machine's part has under 2 bytes, its state count is not 1 to 32 or its length not what its counts say"],
  4: ["field", "a state byte over 16, an arc's state too high, marks over 15, a kind over 2, an empty set or a symbol that is not there"],
  5: ["clash", "two arcs of a state take one pair"],
  6: ["product", "the product of the machines' state counts is over 128"],
  7: ["ranking", "not a ranking: each machine's number once, the highest first"],
  8: ["word", "a word has at most 24 symbols, each of 1 to the card's last"],
  9: ["work", "the work slice is too short"],
  10: ["no candidate", "no complete candidate"],
  12: ["answer", "the answer slice is too short for the best candidate"],
  13: ["candidate", "a candidate has at most 3,199 pairs, symbols of the card, and no pair 0:0"],
  14: ["not complete", "a machine does not take the candidate's pairs to a final state"],
  15: ["conditions", "a list of conditions has at most 64 pairs, whose two sets do not meet, of machines that there are"],
  16: ["no ranking", "no ranking fits"],
  17: ["parts", "the lengths are not those of the joined parts, or there is no such machine"],
  18: ["target", "the target is too short"],
  19: ["tableau", "the tableau has not 1 to 32 rows, laid out as it should be, with a claimed row among them"],
  20: ["row candidate", "a row's candidate is no complete candidate for the word"],
  21: ["row counts", "a row's counts are not its profile"],
  23: ["row count", "a live tableau's row count is above 32 or the list's length, or there is no room for another row"],
  24: ["presence", "an added id is present, or a removed one is not"],
  25: ["sets", "a set is empty, or holds a symbol that is not there"],
  26: ["weights", "not one weight for each machine, or one above 4,000,000.000"],
  27: ["machines", "not two different machines of the card, or both have marks"],
  28: ["joined size", "the joined machine has more than 32 states or 255 arcs"],
};

/** The refusals that the program asks for by name. */
export const Refusal = {
  RANKING: 7,
  NO_CANDIDATE: 10,
  CANDIDATE: 13,
  NOT_COMPLETE: 14,
  NO_RANKING: 16,
  TABLEAU: 19,
  ROW_CANDIDATE: 20,
  ROW_COUNTS: 21,
  WEIGHTS: 26,
  MACHINES: 27,
  JOINED_SIZE: 28,
} as const;

/** What a call of the engine refused: the refusal's number, its name and its reason. */
export class Refused extends Error {
  readonly refusal: string;
  readonly reason: string;

  constructor(readonly number: number) {
    const [name, reason] = REFUSALS[number] ?? ["unknown", "a number that is no refusal"];
    super(`refused ${number} (${name}): ${reason}`);
    this.name = "Refused";
    this.refusal = name;
    this.reason = reason;
  }
}

/** What a call answers, or null where it refuses with this number. Other refusals are thrown on. */
export function unless<T>(number: number, call: () => T): T | null {
  try {
    return call();
  } catch (error) {
    if (error instanceof Refused && error.number === number) return null;
    throw error;
  }
}
