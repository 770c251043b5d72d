/** Ties and alignments by brute force: every candidate of up to five pairs on small cards by chance, by the engine's evaluation. */
import assert from "node:assert/strict";
import { writeFileSync } from "node:fs";
import { test } from "node:test";
import { aligned } from "../src/analysis/aligning";
import { ask } from "../src/analysis/asking";
import { Product } from "../src/analysis/product";
import { finish } from "../src/analysis/task";
import { MOST_TIES, tiesOf } from "../src/analysis/ties";
import { Refused } from "../src/engine/refusals";
import { Candidate, Pair, Profile, Word } from "../src/engine/results";
import { allRankings, Card, cardBytes, formOf, keyOf, numbered, same, wordsOf } from "../src/model/card";
import { Arc, commonPair, Machine, setOf, travelled } from "../src/model/machine";
import { readCardText } from "../src/model/cardText";
import { CARDS, chance, engine, inFolder, json, load, text } from "./running";
import { YOKUTS } from "./yokuts";

const PAIRS = 5;
const SYMBOLS = 2;
const random = chance(48);

/** A card of two or three small machines; some insertions without marks, some pairs that a machine lacks. */
function smallCard(): Card {
  const machines = Array.from({ length: 2 + random(2) }, (_, number): Machine => {
    const states = Array.from({ length: 1 + random(3) }, (_each, at) => ({ name: String(at), ending: random(5) ? (random(4) ? 0 : 1) : at ? null : 0 }));
    const arcs: Arc[] = [];
    for (let from = 0; from < states.length; from++) {
      for (let input = 0; input <= SYMBOLS; input++) {
        for (let output = 0; output <= SYMBOLS; output++) {
          if ((!input && !output) || !random(8)) continue;
          arcs.push({ from, to: random(states.length), marks: random(10) < (input ? 3 : 6) ? 1 : 0, kind: "any", inputs: setOf([input]), outputs: setOf([output]) });
        }
      }
    }
    assert.ok(arcs.every((one, at) => arcs.slice(at + 1).every((two) => one.from !== two.from || !commonPair(one, two))));
    return { name: String(number), states, arcs };
  });
  return numbered("small", cardBytes(SYMBOLS, machines), machines);
}

interface Counted {
  readonly candidate: Candidate;
  readonly counts: Profile;
}

/** All complete candidates for a word with up to five pairs. */
function allCandidates(card: Card, word: Word): Counted[] {
  const found: Counted[] = [];
  const grow = (candidate: Pair[], read: number) => {
    if (read === word.length) {
      try {
        found.push({ candidate, counts: engine.evaluate(card.bytes, candidate).counts });
      } catch (error) {
        if (!(error instanceof Refused && error.number === 14)) throw error;
      }
    }
    if (candidate.length === PAIRS) return;
    for (let output = 0; output <= SYMBOLS; output++) {
      if (output) grow([...candidate, [0, output]], read);
      if (read < word.length) grow([...candidate, [word[read]!, output]], read + 1);
    }
  };
  grow([], 0);
  return found;
}

/** Whether a candidate passes a node twice: the machines' states and the place in the word. */
function goesRound(card: Card, candidate: Candidate): boolean {
  const states = card.machines.map((machine) => [0, ...travelled(machine, candidate).map((arc) => machine.arcs[arc]!.to)]);
  let place = 0;
  const nodes = [0, ...candidate.map(([input]) => (place += input ? 1 : 0))].map((at, number) => keyOf([at, ...states.map((way) => way[number])]));
  return new Set(nodes).size < nodes.length;
}

test("ties: on small cards none of up to five pairs is missed, each is one, and loops are said", () => {
  const seen = { ties: 0, endless: 0, cut: 0, none: 0 };
  for (let turn = 0; turn < 200; turn++) {
    const card = smallCard();
    const word = Array.from({ length: random(4) }, () => 1 + random(SYMBOLS));
    const all = allCandidates(card, word);
    for (const ranking of allRankings(card.machines.length)) {
      const best = ask(engine, card, ranking, word);
      if (best === null) continue;
      const { rows, cut, endless } = finish(tiesOf(engine, card, ranking, word, best));
      const listed = new Set(rows.map(({ candidate }) => keyOf(formOf(candidate))));
      assert.equal(listed.size, rows.length, "a form is listed twice");
      assert.ok(!listed.has(keyOf(formOf(best.candidate))));
      for (const { candidate } of rows) {
        assert.deepEqual(engine.evaluate(card.bytes, candidate).counts, best.counts);
        assert.deepEqual(candidate.map(([input]) => input).filter((input) => input), word);
      }
      const tying = all.filter(({ candidate, counts }) => same(counts, best.counts) && !same(formOf(candidate), formOf(best.candidate)));
      const longest = Math.max(...rows.map(({ candidate }) => formOf(candidate).length), 0);
      for (const { candidate } of tying) {
        const form = formOf(candidate);
        if (goesRound(card, candidate)) assert.ok(endless, "a loop is not said");
        else assert.ok(listed.has(keyOf(form)) || (cut && form.length >= longest), `${keyOf(candidate)} is missed`);
      }
      assert.ok(!cut || rows.length === MOST_TIES);
      seen.ties += rows.length;
      seen.endless += Number(endless);
      seen.cut += Number(cut);
      seen.none += Number(!rows.length);
    }
  }
  assert.ok(seen.ties > 200 && seen.endless > 10 && seen.none > 50, JSON.stringify(seen));
});

test("alignments: the best of all candidates of up to five pairs with the form", () => {
  let asked = 0;
  for (let turn = 0; turn < 60; turn++) {
    const card = smallCard();
    const word = Array.from({ length: random(3) }, () => 1 + random(SYMBOLS));
    const all = allCandidates(card, word);
    for (const ranking of allRankings(card.machines.length).slice(0, 3)) {
      const product = new Product(card, ranking);
      for (let code = 0; code < 15; code++) {
        // Every form of up to three symbols; a word of up to two has its alignments within five pairs.
        const form = [...(code + 1).toString(2)].slice(1).map((bit) => Number(bit) + 1);
        const found = aligned(product, word, form);
        const [least] = all
          .filter(({ candidate }) => same(formOf(candidate), form))
          .sort((one, two) => {
            const { order } = engine.compare(card.machines.length, ranking, one.counts, two.counts);
            if (order !== "equal") return order === "better" ? -1 : 1;
            if (one.candidate.length !== two.candidate.length) return one.candidate.length - two.candidate.length;
            const [first, second] = [one.candidate.flat(), two.candidate.flat()];
            const at = first.findIndex((symbol, place) => symbol !== second[place]);
            return at < 0 ? 0 : first[at]! - second[at]!;
          });
        assert.deepEqual(found, least?.candidate ?? null);
        asked++;
      }
    }
  }
  assert.ok(asked > 1000);
});

test("the answer's form is aligned as the engine aligns it", () => {
  for (const folder of CARDS) {
    const card = load(folder);
    for (const ranking of allRankings(card.machines.length).slice(0, 24)) {
      const product = new Product(card, ranking);
      for (const word of wordsOf(card).slice(0, 6)) {
        const best = ask(engine, card, ranking, word);
        if (best) assert.deepEqual(aligned(product, word, formOf(best.candidate)), best.candidate);
      }
    }
  }
});

test("the epenthesis site is a tie", () => {
  const card = readCardText(engine, "yokuts", YOKUTS);
  const word = card.lines[0]!.word;
  const best = ask(engine, card, [0, 2, 1], word)!;
  const { rows, cut, endless } = finish(tiesOf(engine, card, [0, 2, 1], word, best));
  const forms = [best, ...rows].map(({ candidate }) => formOf(candidate).map((symbol) => card.symbols[symbol]).join(""));
  assert.deepEqual([forms.sort(), cut, endless], [["VCCiCV", "VCiCCV"], false, false]);
});

test("a long list is cut, and says so", () => {
  const free = "symbols a b\nset s = a b\nmachine m\n  states one\n  final one\n  arc one -> one  s : s\n";
  const one = readCardText(engine, "free", `${free}line m / a a a a a a\n`);
  const best = ask(engine, one, [0], one.lines[0]!.word)!;
  const cut = finish(tiesOf(engine, one, [0], one.lines[0]!.word, best));
  assert.deepEqual([cut.rows.length, cut.cut, cut.endless], [MOST_TIES, true, false]);
  const two = readCardText(engine, "loop", `${free}  arc one -> one  0 : b\nline m / a\n`);
  const looping = finish(tiesOf(engine, two, [0], [1], ask(engine, two, [0], [1])!));
  assert.deepEqual([looping.rows.map(({ candidate }) => formOf(candidate)), looping.cut, looping.endless], [[[2]], false, true]);
});

test("the tableau says its ties, in words and in JSON", () =>
  inFolder(async () => {
    writeFileSync("card.txt", YOKUTS);
    const said = await text(["tableau", "card.txt", "*CCC >> Max >> Dep", "V C C C V"]);
    const hands = said.split("\n").filter((line) => line.startsWith("☞"));
    assert.deepEqual(hands.map((line) => line.split(/\s+/)[1]!), ["VCiCCV", "VCCiCV"]);
    assert.ok(hands[1]!.endsWith("ties with VCiCCV"), said);
    const made = await json<{ ties: string[]; cut: boolean; rows: { candidate: string; winner: boolean; decided: number | null }[] }>(["tableau", "card.txt", "021", "V C C C V"]);
    assert.deepEqual([made.ties, made.cut], [["2:2 1:1 1:1 0:3 1:1 2:2"], false]);
    assert.deepEqual(made.rows[1], { candidate: made.ties[0], counts: [0, 1, 0], winner: false, decided: null });
    writeFileSync("card.txt", "symbols a b\nmachine m\n  states one\n  final one\n  arc one -> one  a : a\n  arc one -> one  0 : b\nline m / a\n");
    assert.ok((await text(["tableau", "card.txt", "m", "a"])).includes("not all ties are listed: insertions without marks make endlessly many"));
  }));
