/** Whether a tableau is right for a card, a ranking and a word. */
import { Engine, pairsOf } from "../engine/engine";
import { Refusal, Refused } from "../engine/refusals";
import { COUNT, ROWS } from "../engine/limits";
import { Ranking, Word } from "../engine/results";
import { BadInput, quoted } from "../model/badInput";
import { Card, ClaimedRow, countsOf, same, spelledBy } from "../model/card";
import { formText, numberOf, pairsText, readCandidate, split, wordText } from "../model/notation";
import { stoppedAt } from "./completeness";

/** A verdict as the demo's files have it, and more about it in names. */
export interface Verdict {
  readonly short: string;
  readonly more: string;
}

/** What they say of a tableau is an answer. */
const OF_THE_TABLEAU: readonly number[] = [Refusal.TABLEAU, Refusal.ROW_CANDIDATE, Refusal.ROW_COUNTS];

/** A row as card.txt has it: `> IN:OUT .. = COUNT ..`. */
export function readRow(card: Card, text: string): ClaimedRow {
  const claimed = text.trimStart().startsWith(">");
  const body = text.trim().replace(/^>/, "");
  const sign = body.indexOf("=");
  const counts = split(sign < 0 ? "" : body.slice(sign + 1)).map((count) => numberOf(count, COUNT, `row ${quoted(text)}`));
  if (sign < 0 || counts.length !== card.machines.length) {
    throw new BadInput(`row ${quoted(text)}: a row is written IN:OUT .. = COUNT .., with ${card.machines.length} counts, and > before the claimed one`);
  }
  return { claimed, candidate: readCandidate(card, body.slice(0, sign)), counts };
}

export function readRows(card: Card, texts: readonly string[]): ClaimedRow[] {
  const rows = texts.map((text) => readRow(card, text));
  if (rows.filter(({ claimed }) => claimed).length !== 1) throw new BadInput("one row has > before it: the winner that the tableau claims");
  if (rows.length > ROWS) throw new BadInput(`${rows.length} rows, more than ${ROWS}`);
  return rows;
}

/** The rows of a tableau whose layout the engine has accepted. */
export function rowsOf(tableau: Uint8Array): { counts: number[]; bytes: Uint8Array }[] {
  const view = new DataView(tableau.buffer, tableau.byteOffset, tableau.byteLength);
  return Array.from({ length: tableau[0]! }, (_, number) => {
    const start = view.getUint16(2 + 4 * number, true);
    const end = start + view.getUint16(4 + 4 * number, true);
    return { counts: Array.from({ length: 6 }, (_none, machine) => view.getUint16(start + 2 * machine, true)), bytes: tableau.subarray(start + 12, end) };
  });
}

export function judge(engine: Engine, card: Card, ranking: Ranking, word: Word, tableau: Uint8Array): Verdict {
  try {
    const { verdict, row } = engine.judge(card.bytes, ranking, word, tableau);
    if (verdict === "right") return { short: "right", more: "no complete candidate is better than the claimed row" };
    const found = verdict === "another row" ? pairsOf(rowsOf(tableau)[row]!.bytes) : engine.optimize(card.bytes, ranking, word).candidate;
    const shown = `${formText(card, found)}  (${pairsText(card, found)})`;
    return verdict === "another row" ? { short: `another row ${row}`, more: shown } : { short: verdict, more: `the best is ${shown}` };
  } catch (error) {
    if (!(error instanceof Refused) || !OF_THE_TABLEAU.includes(error.number)) throw error;
    return { short: `refused ${error.number}`, more: `${error.reason}${where(engine, card, word, tableau, error.number)}` };
  }
}

/** Of a refused tableau, the first row that it is refused for, as the engine evaluates it. */
function where(engine: Engine, card: Card, word: Word, tableau: Uint8Array, number: number): string {
  if (number === Refusal.TABLEAU) return "";
  for (const [at, { counts, bytes }] of rowsOf(tableau).entries()) {
    const candidate = pairsOf(bytes);
    let found: readonly number[];
    try {
      found = engine.evaluateBytes(card.bytes, bytes).counts;
    } catch (error) {
      if (!(error instanceof Refused)) throw error;
      const place = error.number === Refusal.NOT_COMPLETE ? `: ${stoppedAt(card, candidate)}` : "";
      return `; row ${at}: ${error.reason}${place}`;
    }
    const spells = spelledBy(candidate);
    if (number === Refusal.ROW_CANDIDATE && !same(spells, word)) return `; row ${at}, ${pairsText(card, candidate)}, spells ${wordText(card, spells)}`;
    if (number === Refusal.ROW_COUNTS && !same(found, counts)) {
      return `; row ${at}, ${pairsText(card, candidate)}, has ${countsOf(card, found).join(",")}, not ${countsOf(card, counts).join(",")}`;
    }
  }
  throw new Error(`no row is refused ${number}`);
}
