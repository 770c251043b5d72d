/** What people type: rankings, words written close, candidates by their form, letters composed or not, # in names. */
import assert from "node:assert/strict";
import { writeFileSync } from "node:fs";
import { join } from "node:path";
import { test } from "node:test";
import { aligned } from "../src/analysis/aligning";
import { Product } from "../src/analysis/product";
import { withForm } from "../src/analysis/tableau";
import { allRankings, formOf } from "../src/model/card";
import { cardText, readCardText } from "../src/model/cardText";
import { readGiven, readRanking, readWord, spelled, wordText } from "../src/model/notation";
import { bad, CARDS, chance, DEMO, engine, inFolder, json, load, text } from "./running";

const TAG = join(DEMO, "tag");
const machine = (name: string, set: string) => `machine ${name}\n  states one\n  final one\n  arc one -> one  ${set} : ${set}  1  different\n  arc one -> one  ${set} : ${set}  same\n`;
const cardOf = (symbols: string, ...names: string[]) => readCardText(engine, "typed", `symbols ${symbols}\nset any = ${symbols}\n${names.map((name) => machine(name, "any")).join("")}`);

test("rankings: >>, >, ≫, commas, spaces, digits, with spaces around or none", () => {
  const card = load(TAG);
  for (const typed of ["NoCoda >> PARSE >> DEP", "NoCoda>>PARSE>>DEP", "NoCoda > PARSE > DEP", "NoCoda>PARSE>DEP", "NoCoda ≫ PARSE≫DEP", "NoCoda, PARSE, DEP", "NoCoda,PARSE,DEP", "NoCoda PARSE DEP", "021", "0 2 1", "0,2,1", "0 >> 2 >> 1", "\uFEFFNoCoda » PARSE » DEP "]) {
    assert.deepEqual(readRanking(card, typed), [0, 2, 1], typed);
  }
  const odd = cardOf("a", "x>y", "*μμμ");
  for (const typed of ["*μμμ >> x>y", "*μμμ>>x>y", "*μμμ, x>y", "*μμμ x>y"]) assert.deepEqual(readRanking(odd, typed), [1, 0], typed);
  assert.throws(() => readRanking(card, "NoCoda>>Max"), /no machine 'Max'; there are NoCoda DEP PARSE/);
});

test("words written close: one reading, two readings, none", async () => {
  const card = load(TAG);
  for (const typed of ["tag", "t a g", "1,2,3", "/tag/", " ta g ", "/t a g/"]) assert.deepEqual(readWord(card, typed), [1, 2, 3], typed);
  for (const typed of ["", "∅", "/∅/"]) assert.deepEqual(readWord(card, typed), [], typed);
  const affricate = cardOf("t s ts a", "m");
  assert.deepEqual(readWord(affricate, "ta"), [1, 4]);
  assert.deepEqual(readWord(affricate, "ts a"), [3, 4]);
  assert.throws(() => readWord(affricate, "atsa"), /word 'atsa': 'atsa' can be read as 'a t s a' and as 'a ts a': write it with spaces/);
  await bad(["tableau", TAG, "012", "taq"], "no symbol 'taq'; there are t a g e .");
  assert.equal(await text(["tableau", TAG, "NoCoda>DEP>PARSE", "tag"]), await text(["tableau", TAG, "012", "1,2,3"]));
});

test("words written close, by chance: what is shown close is read again", () => {
  const random = chance(4);
  for (const folder of CARDS) {
    const card = load(folder);
    for (let turn = 0; turn < 40; turn++) {
      const word = Array.from({ length: random(6) }, () => 1 + random(card.symbols.length - 1));
      assert.deepEqual(readWord(card, wordText(card, word)), word);
    }
  }
});

test("letters: composed or not, tie bars, combining marks, a byte order mark", () => {
  const composed = cardOf("\u00e9 a t\u0361s n\u0325", "m");
  const apart = readCardText(engine, "typed", `\uFEFF${cardText(composed).normalize("NFD")}`);
  assert.deepEqual(apart.symbols, composed.symbols);
  assert.deepEqual([...apart.bytes], [...composed.bytes]);
  const word = [3, 1, 4, 2];
  assert.equal(spelled(composed, word), "t\u0361s\u00e9n\u0325a");
  for (const typed of ["t\u0361s\u00e9n\u0325a", "t\u0361se\u0301n\u0325a", "\uFEFFt\u0361s e\u0301 n\u0325 a"]) assert.deepEqual(readWord(composed, typed), word);
});

test("# in names is no comment, and is written so that it is read again", () => {
  const said = "symbols C \\# V # the edge is a symbol\nset any = C \\# V\n" + machine("*C#", "any") + machine("\\#V", "any") + "# a comment\nline *C# \\#V / \\# C \\#   # another\n  tableau \\#V *C# / \\#\n> \\#:# = 0 0\n";
  const card = readCardText(engine, "edges", said);
  assert.deepEqual(card.symbols, ["0", "C", "#", "V"]);
  assert.deepEqual(card.machines.map(({ name }) => name), ["*C#", "#V"]);
  assert.deepEqual(card.lines.map(({ word }) => word), [[2, 1, 2], [2]]);
  assert.deepEqual(readCardText(engine, "edges", cardText(card)), card);
  assert.deepEqual(readRanking(card, "#V >> *C#"), [1, 0]);
  assert.deepEqual(readWord(card, "#C#"), [2, 1, 2]);
});

test("a candidate by its form: the best alignment under the ranking", async () => {
  const asked = ["tableau", TAG, "PARSE DEP NoCoda", "tag"];
  for (const typed of ["a.", "a .", "tag -> a.", "/tag/ → a.", "t a g -> a."]) {
    assert.equal(await text([...asked, typed]), await text([...asked, "t:0 a:a 0:. g:0"]), typed);
  }
  const card = load(TAG);
  assert.deepEqual(readGiven(card, [1, 2, 3], "∅"), { form: [] });
  await bad([...asked, "gat."], "form gat.: the machines take no candidate for /tag/ with this form");
  await bad([...asked, "ta -> a."], "is one of /ta/, the word is /tag/");
  await bad([...asked, "a -> a -> a"], "a form is written FORM or WORD -> FORM");
  await bad([...asked, "tax"], "form 'tax': no symbol 'tax'");
  await bad([...asked, "a".repeat(201)], "a form of 201 symbols, more than 200: give it as pairs");
  await bad(["tableau", TAG, "00", "tag", "a."], "refused 7");
  // The ranking chooses the alignment.
  for (const ranking of allRankings(3)) {
    const { candidate, counts } = withForm(engine, card, ranking, [1, 2, 3], [2, 5]);
    assert.deepEqual(formOf(candidate), [2, 5]);
    assert.deepEqual(engine.evaluate(card.bytes, candidate).counts, counts);
    assert.deepEqual(aligned(new Product(card, ranking), [1, 2, 3], [2, 5]), candidate);
  }
});

test("names are shown as they are given", () =>
  inFolder(async () => {
    writeFileSync("card.txt", `symbols a\n${machine("*μμμ", "a")}line *μμμ / a\n`);
    assert.ok((await text(["tableau", "card.txt", "*μμμ", "a"])).includes("*μμμ"));
    assert.deepEqual((await json<{ machines: { name: string }[] }>(["show", "card.txt"])).machines.map(({ name }) => name), ["*μμμ"]);
  }));
