/** The tableaux and typologies of documents 000, 002 and 003, as they print them, on the demo cards. */
import assert from "node:assert/strict";
import { join } from "node:path";
import { test } from "node:test";
import { DEMO, json, text } from "./running";

const demo = (name: string) => join(DEMO, name);

/** Document 002's tableaux of /tag/. The three misprints that demo/README.md names are set right: they touch no winner. */
const CANDIDATES: Record<string, string> = {
  "ta.": "t:t a:a 0:. g:0",
  "ta.ge.": "t:t a:a 0:. g:g 0:e 0:.",
  "tag.": "t:t a:a g:g 0:.",
  "a.": "t:0 a:a 0:. g:0",
  "tag.ee.": "t:t a:a g:g 0:. 0:e 0:e 0:.",
};
/** The ranking, the winner, and each form's marks in ranked order, `!` where it loses. */
const TAG: [string, string, Record<string, string>][] = [
  ["NoCoda DEP PARSE", "ta.", { "ta.": "- - *", "ta.ge.": "- *! -", "tag.": "*! - -", "a.": "- - **!", "tag.ee.": "*! ** -" }],
  ["NoCoda PARSE DEP", "ta.ge.", { "ta.": "- *! -", "ta.ge.": "- - *", "tag.": "*! - -", "a.": "- *!* -", "tag.ee.": "*! - **" }],
  ["PARSE DEP NoCoda", "tag.", { "ta.": "*! - -", "ta.ge.": "- *! -", "tag.": "- - *", "a.": "*!* - -", "tag.ee.": "- *!* *" }],
];

test("document 002: the tableaux of /tag/", async () => {
  for (const [ranking, winner, printed] of TAG) {
    const said = await text(["tableau", demo("tag"), ranking, "t a g", ...Object.values(CANDIDATES)]);
    const [head, , names, ...rows] = said.trimEnd().split("\n") as [string, string, string, ...string[]];
    assert.equal(head, `/tag/  ${ranking.split(" ").join(" >> ")}`);
    const columns = ranking.split(" ").map((name) => names.indexOf(name));
    const found = Object.fromEntries(
      rows.map((row) => {
        const form = row.slice(1).trim().split(/\s+/)[0]!;
        assert.equal(row.startsWith("☞"), form === winner);
        const ends = [...columns.slice(1), row.indexOf(CANDIDATES[form]!)];
        return [form, columns.map((start, at) => row.slice(start, ends[at]).trim() || "-").join(" ")];
      }),
    );
    assert.deepEqual(found, printed);
  }
});

interface Row {
  candidate: string;
  counts: number[];
  winner: boolean;
  decided: number | null;
}

test("document 000, figure 4: b loses under every ranking, a, c and d win under theirs", async () => {
  const rows: Record<string, string> = { a: "V:V C:C 0:.", b: "0:C V:V C:0 0:.", c: "0:C V:V 0:. C:C 0:V 0:.", d: "V:0 C:0" };
  const marks: Record<string, number[]> = { a: [1, 1, 0, 0], b: [0, 0, 1, 1], c: [0, 0, 2, 0], d: [0, 0, 0, 2] };
  for (const [ranking, winner] of [["2301", "a"], ["0132", "c"], ["0123", "d"]] as const) {
    const said = await json<{ ranking: string; word: string; rows: Row[] }>(["tableau", demo("syllables"), ranking, "V C", ...Object.values(rows)]);
    assert.deepEqual([said.ranking, said.word], [ranking, "2,1"]);
    for (const [name, pairs] of Object.entries(rows)) {
      const numbers = pairs.replace(/C/g, "1").replace(/V/g, "2").replace(/\./g, "3");
      const row = said.rows.find(({ candidate }) => candidate === numbers)!;
      assert.deepEqual([row.counts, row.winner], [marks[name], winner === name]);
    }
  }
  assert.ok((await text(["rank", demo("syllables"), `V C=${rows["b"]}`], 1)).includes("no ranking makes this the best"));
});

test("document 003, section 4: (e) is the best of all candidates, not of five", async () => {
  const { ranking, rows } = await json<{ ranking: string; rows: Row[] }>(["tableau", demo("syllables_five"), "Onset NoCoda Max Dep-V Dep-C", "V C"]);
  assert.equal(ranking, "01243");
  assert.deepEqual(rows[0], { candidate: "0:1 2:2 0:3 1:1 0:2 0:3", counts: [0, 0, 0, 1, 1], winner: true, decided: null });
});

interface Languages {
  words: string[];
  languages: { answers: string[]; rankings: number; smallest: string }[];
}
const counts = (line: string) => line.split(" ")[0]!;
const typology = (card: string, ...words: string[]) => json<Languages>(["typology", demo(card), ...words]);

/** Document 000, figure 9: for each word the counts of its contenders (dep, max, no_aa, no_abab), and the one that the figure lacks. */
const FIGURE_9: Record<string, string[]> = {
  "A A": ["0,1,0,0", "0,0,1,0", "1,0,0,0"],
  "A A A": ["0,0,2,0", "3,0,0,0", "0,2,0,0", "2,0,0,1"],
  "A B": ["0,0,0,0"],
  "A B A B": ["0,1,0,0", "0,0,0,1", "1,0,0,0"],
  "A A B A B": ["1,0,1,0", "0,1,1,0", "0,2,0,0", "0,0,1,1", "0,1,0,1", "1,0,0,2", "3,0,0,0"],
  "A B A B A B": ["0,0,0,2", "0,1,0,0", "2,0,0,0"],
};

test("document 000, figure 9", async () => {
  for (const [word, contenders] of Object.entries(FIGURE_9)) {
    const { languages } = await typology("contenders", word);
    assert.deepEqual(languages.map(({ answers }) => counts(answers[0]!)).sort(), [...contenders].sort());
    assert.equal(languages.reduce((sum, { rankings }) => sum + rankings, 0), 24);
  }
  assert.equal((await typology("contenders")).languages.length, 7);
});

test("the syllable typology: of nine pairs of choices two need Dep ranked two ways", async () => {
  const { words, languages } = await typology("syllables", "V", "C V C");
  assert.deepEqual(words, ["2", "1,2,1"]);
  const forms = languages.map(({ answers }) => answers.map(counts).join(" "));
  assert.equal(forms.length, 7);
  assert.ok(!forms.includes("0,0,1,0 0,0,0,1") && !forms.includes("0,0,0,1 0,0,1,0"));
  const six = await typology("syllables", "V C");
  assert.deepEqual(six.languages.map(({ answers }) => counts(answers[0]!)).sort(), ["1,1,0,0", "0,0,2,0", "0,0,0,2", "1,0,0,1", "1,0,1,0", "0,1,1,0"].sort());
});

test("document 002: /tag/ has three languages, two rankings to each", async () => {
  for (const card of ["tag", "tag_ending"]) {
    const { languages } = await typology(card, "t a g");
    assert.deepEqual(languages.map(({ rankings, smallest }) => [rankings, smallest]), [[2, "012"], [2, "021"], [2, "120"]]);
  }
});
