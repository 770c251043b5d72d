#!/usr/bin/env node
/** What crate test_corpus does, through the WebAssembly: reads the calls of the file `cases` and prints a line for each. */
import { readFileSync } from "node:fs";
import { Engine } from "../src/engine/engine";
import { Refused } from "../src/engine/refusals";
import { Best, Profile } from "../src/engine/results";

const PRIME = 1000000007n;
/** The refusals that leave the work slice as it was. */
const KEEPING = [1, 2, 3, 4, 5, 6, 7, 8, 9, 25, 26];

const engine = Engine.load(new Uint8Array(Buffer.from(/id="engine">([^<]*)</.exec(readFileSync(process.env["PASTASPUR_PAGE"]!, "utf8"))![1]!, "base64")));
const file = new Uint8Array(readFileSync("cases"));
const view = new DataView(file.buffer);
let at = 0;

const byte = () => file[at++]!;
const number = () => ((at += 2), view.getUint16(at - 2, true));
const bytes = () => {
  const length = number();
  at += length;
  return file.slice(at - length, at);
};
const words = () => Array.from({ length: number() }, () => ((at += 4), view.getUint32(at - 4, true)));
const longs = () => Array.from({ length: number() }, () => ((at += 8), view.getBigUint64(at - 8, true)));
const shorts = () => Array.from({ length: number() }, number);
const profile = (): Profile => Array.from({ length: 6 }, number);
const filled = () => new Uint8Array(number()).fill(byte());

function inShort(slice: Uint8Array): bigint {
  return [...slice].reduce((sum, each) => (257n * sum + BigInt(each)) % PRIME, 0n);
}

/** The number and what follows it, `refused` where the call is refused. */
function answered(call: () => string, refused: string): string {
  try {
    return `0 ${call()}`;
  } catch (error) {
    if (error instanceof Refused) return `${error.number} ${refused}`;
    throw error;
  }
}

const NONE = "0,0,0,0,0,0 0 0";
const evaluation = (counts: Profile, pairs: number, length: number) => `${counts.join(",")} ${pairs} ${length}`;
const kept = (said: string, work: number) => (KEEPING.includes(Number(said.split(" ")[0])) ? ` ${work}` : "");

function search<A>(name: string, call: (card: Uint8Array, ranking: number[], asked: A, lent: object) => Best, read: () => A): string {
  const [card, ranking, asked] = [bytes(), [...bytes()], read()];
  const work = number();
  const answer = filled();
  const before = answer.slice();
  const said = answered(() => {
    const { counts, candidate, wordLength } = call(card, ranking, asked, { work, answer });
    const written = 2 * candidate.length;
    if (answer.subarray(written).some((each, place) => each !== before[written + place])) throw new Error("more was written than the answer");
    return evaluation(counts, candidate.length, wordLength);
  }, NONE);
  return `${name} ${said} ${inShort(answer)}${kept(said, work)}`;
}

const KINDS: Record<number, () => string> = {
  1: () => search("optimize", (...given) => engine.optimize(...given), () => [...bytes()]),
  2: () => {
    const [card, candidate] = [bytes(), bytes()];
    return `evaluate ${answered(() => {
      const { counts, pairs, wordLength } = engine.evaluateBytes(card, candidate);
      return evaluation(counts, pairs, wordLength);
    }, NONE)}`;
  },
  3: () => {
    const [card, machine] = [bytes(), byte()];
    return `part ${answered(() => {
      const { offset, length } = engine.readPart(card, machine);
      return `${offset} ${length}`;
    }, "0 0")}`;
  },
  4: () => {
    const [symbols, lengths, parts, target] = [byte(), shorts(), bytes(), filled()];
    return `pack ${answered(() => String(engine.packJoined(symbols, lengths, parts, target).length), "0")} ${inShort(target)}`;
  },
  5: () => {
    const [machines, ranking, first, second] = [byte(), [...bytes()], profile(), profile()];
    return `compare ${answered(() => {
      const { order, machine } = engine.compare(machines, ranking, first, second);
      return `${["", "better", "equal", "worse"].indexOf(order)} ${machine ?? 0}`;
    }, "0 0")}`;
  },
  6: () => {
    const [machines, first, second] = [byte(), profile(), profile()];
    return `condition ${answered(() => {
      const { fewer, more } = engine.condition(machines, first, second);
      return `${fewer} ${more}`;
    }, "0 0")}`;
  },
  7: () => {
    const [machines, conditions] = [byte(), bytes()];
    return `ranking ${answered(() => [...engine.findRankingBytes(machines, conditions), 0, 0, 0, 0, 0, 0].slice(0, 6).join(","), "0,0,0,0,0,0")}`;
  },
  8: () => {
    const [card, ranking, word, work, tableau] = [bytes(), [...bytes()], [...bytes()], number(), bytes()];
    const said = answered(() => {
      const { verdict, row } = engine.judge(card, ranking, word, tableau, { work });
      return `${["", "right", "another row", "not in the table"].indexOf(verdict)} ${row}`;
    }, "0 0");
    return `judge ${said}${kept(said, work)}`;
  },
  9: () => search("cull", (...given) => engine.cull(...given), () => [...bytes()]),
  13: () => search("optimize sets", (...given) => engine.optimizeSets(...given), longs),
  14: () => search("cull sets", (...given) => engine.cullSets(...given), longs),
  15: () => {
    const [card, weights, word, work, answer] = [bytes(), words(), [...bytes()], number(), filled()];
    const said = answered(() => {
      const { counts, candidate, wordLength, sum } = engine.optimizeWeights(card, weights, word, { work, answer });
      return `${evaluation(counts, candidate.length, wordLength)} ${sum}`;
    }, `${NONE} 0`);
    return `optimize weights ${said} ${inShort(answer)}${kept(said, work)}`;
  },
  16: () => {
    const [card, first, second, target] = [bytes(), byte(), byte(), filled()];
    return `join ${answered(() => String(engine.join(card, first, second, target).length), "0")} ${inShort(target)}`;
  },
};

let lines = "";
while (at < file.length) lines += `${KINDS[byte()]!()}\n`;
process.stdout.write(lines);
