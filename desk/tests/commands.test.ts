/** The commands, each by what it shows and by its JSON. */
import assert from "node:assert/strict";
import { existsSync, readFileSync, writeFileSync } from "node:fs";
import { basename, join } from "node:path";
import { test } from "node:test";
import { askAll, ask } from "../src/analysis/asking";
import { finish } from "../src/analysis/task";
import { PROMISE } from "../src/analysis/trimming";
import { askEssential, typologyOf } from "../src/analysis/typology";
import { Refused } from "../src/engine/refusals";
import { allRankings, cardBytes, essential, formOf, keyOf, same, wordsOf } from "../src/model/card";
import { readCardText } from "../src/model/cardText";
import { setOf, travelled } from "../src/model/machine";
import { Kind, KINDS } from "../src/model/machine";
import { CARDS, DEMO, desk, engine, inFolder, json, load, ROOT, text } from "./running";

const demo = (name: string) => join(DEMO, name);
const includes = (whole: string, part: string) => assert.ok(whole.includes(part), `${part} is not in\n${whole}`);
const loadText = (said: string) => readCardText(engine, "card", said);
const bytesOf = (path: string) => [...new Uint8Array(readFileSync(path))];

test("show: a card in words", async () => {
  const said = await text(["show", demo("tag_ending")]);
  includes(said, "machine 0, NoCoda: 5 states, 14 arcs");
  includes(said, "state  coda            final, 1 mark");
  includes(said, "coda -> next  any : .  1");
  includes(await text(["show", demo("devoicing")]), "segment : segment  1  different");
});

test("show: a card without names", () =>
  inFolder(async (folder) => {
    writeFileSync("card.bin", readFileSync(join(demo("card_b"), "card.bin")));
    const said = await text(["show", "card.bin"]);
    includes(said, "machine 0: 2 states, 6 arcs");
    includes(said, "0 -> 1  0,1,2 : 1");
    assert.equal(said, await text(["show", folder]));
  }));

test("the lines of a card without names are those of stdin beside it, but for those that are none", () =>
  inFolder(async (folder) => {
    writeFileSync("card.bin", readFileSync(join(demo("card_b"), "card.bin")));
    writeFileSync("stdin", `012 2\n021 1,2\n012 \n011 1\n012 3\nbad\n0123 1\n012 ${Array(25).fill("1").join(",")}\n021 2`);
    assert.deepEqual(load(folder).lines, [
      { ranking: [0, 1, 2], word: [2] },
      { ranking: [0, 2, 1], word: [1, 2] },
      { ranking: [0, 1, 2], word: [] },
      { ranking: [0, 2, 1], word: [2] },
    ]);
    assert.deepEqual((await json(["typology", folder]))["words"], ["2", "1,2", ""]);
  }));

interface Shown {
  symbols: string[];
  machines: { name: string; states: { name: string; ending: number | null }[]; arcs: { from: number; to: number; marks: number; kind: number; in: number[]; out: number[] }[] }[];
}

test("show: the card packs again from its JSON", async () => {
  for (const folder of CARDS) {
    const { symbols, machines } = await json<Shown>(["show", folder]);
    const made = machines.map(({ name, states, arcs }) => ({
      name,
      states,
      arcs: arcs.map((arc) => ({ from: arc.from, to: arc.to, marks: arc.marks, kind: KINDS[arc.kind] as Kind, inputs: setOf(arc.in), outputs: setOf(arc.out) })),
    }));
    assert.deepEqual([...cardBytes(symbols.length, made)], bytesOf(join(folder, "card.bin")));
  }
});

test("tableau: JSON as laid down", async () => {
  assert.equal(
    await text(["tableau", demo("card_b"), "012", "2", "--json"]),
    '{"ranking": "012", "word": "2", "rows": [' +
      '{"candidate": "2:0", "counts": [0, 0, 1], "winner": true, "decided": null}, ' +
      '{"candidate": "0:1 2:2", "counts": [0, 1, 0], "winner": false, "decided": 1}, ' +
      '{"candidate": "2:2", "counts": [1, 0, 0], "winner": false, "decided": 0}], "ties": [], "cut": false, "endless": false}\n',
  );
});

test("tableau: a tie is said; the empty word; no candidate", async () => {
  includes(await text(["tableau", demo("tag"), "012", "t a g", "t:t a:a g:0 0:."]), "g:0 0:.  (ties with the answer)");
  const { rows } = await json<{ rows: { candidate: string }[] }>(["tableau", demo("affix"), "012", ""]);
  assert.deepEqual(rows.map(({ candidate }) => candidate), ["0:1 0:2", "0:2"]);
  assert.deepEqual(await json(["tableau", demo("alqalamu"), "ONS FILL", "l q a"], 1), { ranking: "01", word: "2,3,1", rows: [], ties: [], cut: false, endless: false });
  includes(await text(["tableau", demo("alqalamu"), "01", "2,3,1"], 1), "no complete candidate");
});

test("a ranking is read as it is printed", async () => {
  assert.equal(await text(["tableau", demo("tag"), "NoCoda >> PARSE >> DEP", "t a g"]), await text(["tableau", demo("tag"), "021", "t a g"]));
  assert.equal(await text(["tableau", demo("tag"), "NoCoda ≫ PARSE ≫ DEP", "t a g"]), await text(["tableau", demo("tag"), "NoCoda PARSE DEP", "t a g"]));
});

test("typology: JSON as laid down", async () => {
  assert.equal(
    await text(["typology", demo("alqalamu"), "l q a", "u", "--json"]),
    '{"words": ["2,3,1", "5"], "languages": [' +
      '{"answers": ["refused 10", "0,1 0:6 5:7"], "rankings": 1, "smallest": "01"}, ' +
      '{"answers": ["refused 10", "1,0 5:7"], "rankings": 1, "smallest": "10"}]}\n',
  );
  includes(await text(["typology", demo("contenders"), "A B"]), "under every ranking");
});

test("typology: exactly the rankings that fit one of a language's ways give it", () => {
  for (const folder of CARDS) {
    const card = load(folder);
    const count = card.machines.length;
    const words = wordsOf(card);
    const { languages } = typologyOf(engine, card, finish(askEssential(engine, card, words)));
    const smallest = languages.map(({ rankings }) => rankings[0]!.join(""));
    assert.deepEqual(smallest, [...smallest].sort());
    const forms = languages.map(({ answers }) => answers.map((answer) => answer && formOf(answer.candidate)));
    assert.equal(new Set(forms.map(keyOf)).size, languages.length);
    const answered = finish(askAll(engine, card, words));
    languages.forEach(({ ways, rankings }, at) => {
      const least = ways.map((conditions) => engine.findRanking(count, conditions).join("")).sort();
      assert.equal(least[0], rankings[0]!.join(""));
      allRankings(count).forEach((ranking, number) => {
        const fit = ways.some((conditions) => conditions.every(({ fewer, more }) => fewer >> ranking.find((machine) => (fewer | more) >> machine & 1)! & 1));
        assert.equal(fit, rankings.some((each) => same(each, essential(card, ranking))));
        assert.equal(fit, same(answered.answers[number]!.map((answer) => answer && formOf(answer.candidate)), forms[at]));
      });
    });
  }
});

/** Two ways to the form b: a becomes b, or a goes and b comes. Gen has no marks. */
const ALIGNED = `symbols a b
machine Gen
  states one
  final one
  arc one -> one  a : 0,a,b
  arc one -> one  0 : b
machine *a
  states one
  final one
  arc one -> one  0,a : a  1
  arc one -> one  0 : b
  arc one -> one  a : 0,b
machine Ident
  states one
  final one
  arc one -> one  a : b  1
  arc one -> one  a : 0,a
  arc one -> one  0 : b
machine Max
  states one
  final one
  arc one -> one  a : 0  1
  arc one -> one  a : a,b
  arc one -> one  0 : b
machine HaveB
  states none some
  final none=1 some
  arc none -> none  a : 0,a
  arc none -> some  0,a : b
  arc some -> some  0,a : a,b
  arc some -> some  a : 0
line Gen *a HaveB Ident Max / a
`;

test("typology: by form and not by alignment; a machine without marks takes no part", () =>
  inFolder(async () => {
    writeFileSync("card.txt", ALIGNED);
    const { languages } = await json<Languages>(["typology", "card.txt", "a"]);
    assert.equal(languages.reduce((sum, { rankings }) => sum + rankings, 0), 24);
    const card = loadText(ALIGNED);
    const asked = finish(askAll(engine, card, [[1]]));
    const outputs = new Map<string, Set<string>>();
    asked.rankings.forEach((ranking, at) => {
      const form = keyOf(formOf(asked.answers[at]![0]!.candidate));
      outputs.set(form, (outputs.get(form) ?? new Set()).add(essential(card, ranking).join("")));
    });
    const alignments = new Set(asked.answers.map(([answer]) => keyOf(answer!.candidate)));
    assert.ok(alignments.size > outputs.size, "no form has two alignments");
    assert.equal(languages.length, outputs.size);
    assert.deepEqual(languages.map(({ rankings }) => rankings).sort(), [...outputs.values()].map(({ size }) => size).sort());
    includes(await text(["typology", "card.txt", "a"]), "from 24 rankings of *a, Ident, Max, HaveB; without marks, and in no ranking: Gen");
  }));

test("rank: the smallest; a tie is the best, too; contradicting", async () => {
  assert.ok((await text(["rank", demo("tag"), "t a g=t:t a:a g:g 0:."])).startsWith("120: DEP >> PARSE >> NoCoda\n"));
  assert.deepEqual(await json(["rank", demo("tag"), "1,2,3=1:1 2:2 0:5 3:3 0:4 0:5"]), { ranking: "021", contradict: [] });
  includes(await text(["rank", demo("tag"), "t a g=t:t a:a g:0 0:."]), "ties with the answer, t:t a:a 0:. g:0");
  const wanted = ["V=V:0", "C V=C:C V:V", "V V=0:C V:V 0:C V:V"];
  assert.deepEqual(await json(["rank", demo("card_b"), ...wanted], 1), { ranking: null, contradict: ["2=2:0", "2,2=0:1 2:2 0:1 2:2"] });
  includes(await text(["rank", demo("card_b"), ...wanted], 1), "needs insertion >> deletion");
});

interface Languages {
  words: string[];
  languages: { answers: string[]; rankings: number; smallest: string }[];
}

test("rank: every language is found again", async () => {
  for (const folder of CARDS) {
    const { words, languages } = await json<Languages>(["typology", folder]);
    for (const { answers, smallest } of languages) {
      const answered = words.flatMap((word, at) => (answers[at]!.startsWith("refused") ? [] : [`${word}=${answers[at]!.split(" ").slice(1).join(" ")}`]));
      assert.equal((await json(["rank", folder, ...answered]))["ranking"], smallest);
    }
  }
});

test("judge: the demo's verdicts", async () => {
  for (const folder of CARDS) {
    const file = join(folder, "tableaux/verdicts");
    if (!existsSync(file)) continue;
    const lines = readFileSync(file, "utf8").trimEnd().split("\n").map((line) => {
      const [, ranking, word, ...verdict] = line.split(" ");
      return { ranking, word, verdict: verdict.join(" ") };
    });
    assert.deepEqual(await json(["judge", folder], lines.every(({ verdict }) => verdict === "right") ? 0 : 1), lines);
  }
});

test("judge: rows, a file, refused rows", () =>
  inFolder(async () => {
    const rows = ["> t:t a:a 0:. g:0 = 0 0 1", "t:t a:a g:g 0:. = 1 0 0"];
    includes(await text(["judge", demo("tag"), "012", "t a g", ...rows]), ": right: ");
    assert.deepEqual(await json(["judge", demo("tag"), "012", "t a g", ...rows]), JSON.parse(await text(["judge", demo("tag"), "--json", "012", "t a g", ...rows])));
    includes(await text(["judge", demo("tag"), "120", "t a g", ...rows], 1), ": another row 1: tag.");
    includes(await text(["judge", demo("tag"), "012", "t a g", join(demo("tag"), "tableaux/4.bin")], 1), "row 4, t:t a:a g:g 0:. 0:e 0:e 0:., has 1,2,0, not 1,1,0");
    const refused = await text(["judge", demo("tag"), "012", "t a g", "> t:t a:a = 0 0 0"], 1);
    includes(refused, "refused 20: a row's candidate is no complete candidate for the word; row 0");
    includes(refused, "NoCoda ends in its state nucleus, which is not final");
    includes(await text(["judge", demo("tag"), "012", "t a g", "> t:t a:a 0:. = 0 0 0"], 1), "row 0, t:t a:a 0:., spells /ta/");
    writeFileSync("empty.bin", "");
    includes(await text(["judge", demo("tag"), "012", "t a g", "empty.bin"], 1), "refused 19");
  }));

test("weigh: the ranking that agrees, none that agrees, no candidate", async () => {
  assert.deepEqual(await json(["weigh", demo("tag"), "1,1,1.5", "t a g"]), { answer: "1,0,0 1:1 2:2 3:3 0:5", sum: 1000, rankings: 2, smallest: "120" });
  assert.equal(await text(["weigh", demo("tag"), "1,1,1.5", "t a g"]), await text(["weigh", demo("tag"), "PARSE=1.5 DEP=1 NoCoda=1", "t a g"]));
  const asked = ["weigh", demo("contenders"), "1,1.5,1.5,1", "A A A"];
  assert.deepEqual(await json(asked), { answer: "1,1,0,0 1:0 1:1 0:2 1:1", sum: 2500, rankings: 0, smallest: null });
  includes(await text(asked), "no ranking agrees: none of the 24");
  assert.deepEqual(await json(["weigh", demo("alqalamu"), "1,1", "l q a"], 1), { answer: "refused 10" });
});

test("sets: a doubtful sound", async () => {
  assert.deepEqual(await json(["sets", demo("devoicing"), "012", "t|d a g|k"]), { word: "3,7,5", answer: "0,0,0 3:3 7:7 5:5" });
  assert.deepEqual(await json(["sets", demo("devoicing"), "012", "3|4,7,6"]), await json(["sets", demo("devoicing"), "012", "t|d a g"]));
  includes(await text(["sets", demo("devoicing"), "012", "t|d a g|k"]), "4 words perhaps heard");
  assert.deepEqual(await json(["sets", demo("alqalamu"), "01", "l|q q a"], 1), { word: null, answer: "refused 10" });
});

test("join: the demo's joined card, and words under every ranking", () =>
  inFolder(async () => {
    for (const [first, second] of [["onset", "hiatus"], ["3", "0"]] as const) {
      assert.deepEqual(await json(["join", demo("syllable_two"), first, second, "-o", "joined.bin"]), { card: "joined.bin", bytes: 346, lines: 21, alike: 21 });
      assert.deepEqual(bytesOf("joined.bin"), bytesOf(join(demo("syllable_joined"), "card.bin")));
    }
    const said = await json(["join", demo("syllable_two"), "onset", "hiatus", "-o", "joined.bin", "V V", "C V V C"]);
    assert.deepEqual([said["lines"], said["alike"]], [48, 48]);
  }));

test("unused: as the demo says, and the promise is there", () =>
  inFolder(async () => {
    const said = await text(["unused", demo("tag"), "-o", "trimmed.bin"]);
    includes(said, "5 of 19 arcs are travelled by none of 6 answers");
    includes(said, "NoCoda: arc 1  start -> nucleus  any : vowel");
    includes(said, PROMISE);
    includes(said, "6 of 6 answers asked again are the same");
    assert.deepEqual((await json<Shown>(["show", "trimmed.bin"])).machines.map(({ arcs }) => arcs.length), [6, 3, 5]);
    const [crate, name] = PROMISE.split("/") as [string, string];
    const [file, theorem] = name.split(".") as [string, string];
    assert.match(readFileSync(join(ROOT, "crates", crate, "proofs", `${file}.antt`), "utf8"), new RegExp(`^ *(pub )?${theorem} :`, "m"));
    const all = await json<{ unused: object[] }>(["unused", demo("tag")]);
    const one = await json<{ unused: object[]; answers: number }>(["unused", demo("tag"), "--ranking", "012", "t a g"]);
    assert.equal(one.answers, 1);
    assert.ok(one.unused.length > all.unused.length);
  }));

test("unused: a travelled arc is one without which the answer is no candidate", () => {
  for (const folder of CARDS) {
    const card = load(folder);
    for (const { ranking, word } of card.lines.slice(0, 6)) {
      const best = ask(engine, card, ranking, word);
      if (!best) continue;
      card.machines.forEach((machine, number) => {
        const used = travelled(machine, best.candidate);
        machine.arcs.forEach((_, arc) => {
          const machines = card.machines.map((each, at) => (at === number ? { ...each, arcs: each.arcs.filter((_other, other) => other !== arc) } : each));
          let complete = true;
          try {
            engine.evaluate(cardBytes(card.symbols.length - 1, machines), best.candidate);
          } catch (error) {
            if (!(error instanceof Refused)) throw error;
            complete = false;
          }
          assert.equal(complete, !used.includes(arc));
        });
      });
    }
  }
});

test("draw: a picture of each machine", () =>
  inFolder(async () => {
    const { files } = await json<{ files: string[] }>(["draw", demo("tag_ending")]);
    assert.deepEqual(files, ["0-NoCoda.svg", "1-DEP.svg", "2-PARSE.svg"]);
    const svg = readFileSync(files[0]!, "utf8");
    for (const part of ["nucleus", "any : consonant", 'aria-label="NoCoda: the machine"']) includes(svg, part);
    await text(["draw", demo("devoicing")]);
    includes(readFileSync("1-Ident.svg", "utf8"), "different");
  }));

test("answers: every line's answer is the board's", async () => {
  for (const folder of CARDS) {
    const said = await json<{ answer: string }[]>(["answers", folder]);
    assert.deepEqual(said.map(({ answer }) => answer), readFileSync(join(folder, "stdout"), "utf8").trimEnd().split("\n").slice(0, -2), basename(folder));
  }
  includes(await text(["answers", demo("tag")]), "    NoCoda >> DEP >> PARSE  /t a g/  ->  NoCoda 0, DEP 0, PARSE 1;  t:t a:a 0:. g:0");
});

test("help: every command says what it takes", async () => {
  const top = await text(["--help"]);
  for (const command of "show tableau typology rank judge weigh sets join unused draw page answers make".split(" ")) {
    includes(top, `\n  ${command} `);
    includes(await text([command, "--help"]), "CARD is a card.bin");
  }
  assert.equal((await desk()).status, 2);
});
