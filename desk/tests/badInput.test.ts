/** Bad input: one clear line on standard error, status 2, nothing half-written. */
import assert from "node:assert/strict";
import { spawnSync } from "node:child_process";
import { readdirSync, readFileSync, renameSync, writeFileSync } from "node:fs";
import { join } from "node:path";
import { test } from "node:test";
import { Refused } from "../src/engine/refusals";
import { bad, DEMO, desk, inFolder, ROOT, text } from "./running";

const CARD_A = [1, 2, 6, 0, 23, 0, 1, 1, 1, 0, 0, 0, 0, 2, 0, 0, 0, 0, 0, 0, 0, 6, 0, 0, 0, 0, 0, 0, 0];
const TAG = join(DEMO, "tag");
const changed = (card: readonly number[], at: number, ...values: number[]) => [...card.slice(0, at), ...values, ...card.slice(at + values.length)];
const bytes = (values: readonly number[]) => Uint8Array.from(values);

test("where a card is refused", () =>
  inFolder(async (folder) => {
    const show = async (card: readonly number[], number: number, where: string) => {
      const path = join(folder, "card.bin");
      writeFileSync(path, bytes(card));
      await bad(["show", path], `${path}: refused ${number} (${new Refused(number).refusal}): `);
      await bad(["show", folder], where);
      await bad(["typology", path, "1"], `refused ${number} (`);
    };
    const cardB = [...readFileSync(join(DEMO, "card_b/card.bin"))];
    await show([], 1, "the card has 0 bytes");
    await show(changed(CARD_A, 0, 7), 1, "byte 0, the machine count, is 7");
    await show(changed(CARD_A, 1, 64), 1, "byte 1, the symbol count, is 64");
    await show(CARD_A.slice(0, 4), 2, "the card has 4 bytes, its table ends at 6");
    await show(changed(CARD_A, 2, 7), 2, "byte 2, the offset of machine 0, is 7 where 6 is due");
    await show([...CARD_A, 0], 2, "the last part ends at byte 29, the card has 30 bytes");
    await show(changed(CARD_A, 6, 0), 3, "machine 0, byte 6, its state count, is 0");
    await show(changed(CARD_A, 7, 2), 3, "machine 0, byte 6: its part has 23 bytes, its 1 states and 2 arcs take 43");
    await show([1, 2, 6, 0, 1, 0, 1], 3, "machine 0, byte 6: its part has 1 bytes");
    await show(changed(CARD_A, 8, 17), 4, "machine 0, state 0, byte 8: its state byte is 17");
    await show(changed(CARD_A, 9, 1), 4, "machine 0, arc 0, byte 9: its first state is 1, the machine has 1");
    await show(changed(CARD_A, 10, 1), 4, "arc 0, byte 10: its second state is 1");
    await show(changed(CARD_A, 11, 16), 4, "machine 0, arc 0, byte 11: its marks are 16");
    await show(changed(CARD_A, 12, 3), 4, "arc 0, byte 12: its kind is 3");
    await show(changed(CARD_A, 13, 0), 4, "arc 0, byte 13: its in set is empty");
    await show(changed(CARD_A, 13, 8), 4, "arc 0, byte 13: its in set has the symbol 3");
    await show(changed(CARD_A, 21, 0), 4, "arc 0, byte 21: its out set is empty");
    await show(changed(CARD_A, 28, 128), 4, "arc 0, byte 21: its out set has the symbol 63");
    await show([1, 2, 6, 0, 43, 0, 1, 2, 1, ...CARD_A.slice(9), ...CARD_A.slice(9)], 5, "machine 0, state 0, arcs 0 and 1 (byte 9 and byte 29): both take 1:1");
    await show(changed(changed(cardB, 208, 6), 216, 6), 5, "machine 2, state 0, arcs 0 and 1 (byte 184 and byte 204): both take 1:1");
    const wide = (states: number) => [states, 0, ...Array<number>(states).fill(1)];
    await show([2, 1, 10, 0, 7, 0, 17, 0, 34, 0, ...wide(5), ...wide(32)], 6, "the machines have 5 * 32 states");
  }));

test("every byte of a card damaged: whatever is refused is refused somewhere", () =>
  inFolder(async (folder) => {
    const card = [...readFileSync(join(DEMO, "card_b/card.bin"))];
    for (let at = 0; at < card.length; at++) {
      for (const value of [0, 3, 255]) {
        writeFileSync(join(folder, "card.bin"), bytes(changed(card, at, value)));
        const { status, err } = await desk("show", folder);
        assert.ok((status === 0 && err === "") || (status === 2 && err.split("\n").length === 2), `byte ${at}: ${err}`);
      }
    }
  }));

test("no such card; a card.txt that says something else", () =>
  inFolder(async (folder) => {
    await bad(["show", "nowhere"], "nowhere: no such card");
    await bad(["typology", folder], "card.bin: no such card");
    writeFileSync("card.bin", readFileSync(join(TAG, "card.bin")));
    const said = readFileSync(join(TAG, "card.txt"), "utf8");
    writeFileSync("card.txt", said.replace("symbols t a g e .", "symbols t a g e"));
    await bad(["typology", folder], "card.txt:18: no symbol or set '.'");
    writeFileSync("card.txt", said.replace("any : consonant    1", "any : consonant    2"));
    await bad(["typology", folder], "says another card than card.bin beside it");
    renameSync("card.bin", "other.bin");
    assert.ok((await text(["typology", "other.bin", "1,2,3"])).includes("/1 2 3/"));
    await bad(["typology", "other.bin"], "name some words");
  }));

test("rankings", async () => {
  await bad(["tableau", TAG, "011", "t a g"], "ranking 011: refused 7 (ranking)");
  await bad(["tableau", TAG, "01", "t a g"], "refused 7");
  await bad(["tableau", TAG, "0129", "t a g"], "refused 7");
  await bad(["tableau", TAG, "NoCoda DEP Max", "t a g"], "no machine 'Max'; there are NoCoda DEP PARSE");
  await bad(["tableau", TAG, "", "t a g"], "ranking ''");
  await bad(["sets", TAG, "012345", "t a g"], "refused 7");
  await bad(["judge", TAG, "00", "t a g", "> t:t a:a g:0 = 0 0 0"], "refused 7");
  await bad(["unused", TAG, "--ranking", "00"], "refused 7");
});

test("words", async () => {
  for (const command of [["tableau", TAG, "012"], ["typology", TAG], ["weigh", TAG, "1,1,1"]]) {
    await bad([...command, "t a q"], "no symbol 'q'; there are t a g e .");
    await bad([...command, "1,2,6"], "no symbol '6'");
    await bad([...command, "1,,2"], "no symbol ''");
    await bad([...command, "0"], "the empty symbol is in no word");
    await bad([...command, Array(25).fill("1").join(",")], "refused 8 (word)");
  }
  await bad(["sets", TAG, "012", "t|0 a"], "refused 25 (sets)");
  await bad(["sets", TAG, "012", "t| a"], "no symbol ''");
});

test("candidates: refusal 14 says which machine stopped at which pair", async () => {
  await bad(["tableau", TAG, "012", "t a g", "t:t a:a"], "refused 14 (not complete)");
  await bad(["tableau", TAG, "012", "t a g", "t:t a:a"], "NoCoda ends in its state nucleus, which is not final");
  await bad(["tableau", TAG, "012", "t a g", "t:t a:a g:g a:."], "DEP has no arc for pair 4, a:., in its state one");
  await bad(["tableau", TAG, "012", "t a g", "t:t a:a 0:."], "spells /ta/, the word is /tag/");
  await bad(["tableau", TAG, "012", "t a g", "t:t a g"], "pairs are written IN:OUT");
  await bad(["tableau", TAG, "012", "t a g", "0:0"], "refused 13 (candidate)");
  await bad(["rank", TAG, "t a g"], "WORD=CANDIDATE");
  await bad(["rank", TAG, "t a g=t:t a:a"], "refused 14");
  await bad(["rank", join(DEMO, "alqalamu"), "l q a=l:C q:C a:N"], "refused 14");
});

test("rows", async () => {
  const asked = ["judge", TAG, "012", "t a g"];
  await bad(asked, "a ranking, a word, and rows");
  await bad([...asked, "t:t a:a 0:. g:0 = 0 0 1"], "one row has > before it");
  await bad([...asked, "> t:t a:a 0:. g:0 = 0 0"], "with 3 counts");
  await bad([...asked, "> t:t a:a 0:. g:0"], "a row is written");
  await bad([...asked, "> t:t a:a 0:. g:0 = 0 0 x"], "'x' is no number of 0 to 65535");
  await bad([...asked, "> t:t a:a 0:. g:0 = 0 0 1", ...Array<string>(32).fill("t:t a:a 0:. g:0 = 0 0 1")], "33 rows, more than 32");
  await bad([...asked, "nowhere.bin"], "nowhere.bin: cannot be read: No such file or directory");
  await bad(["judge", join(DEMO, "contenders")], "has no tableaux of its own");
  await bad(["judge", TAG, "012"], "a ranking, a word, and rows");
});

test("weights and machines", async () => {
  await bad(["weigh", TAG, "1,1", "t a g"], "refused 26 (weights)");
  await bad(["weigh", TAG, "1,1,4000000.001", "t a g"], "refused 26 (weights)");
  await bad(["weigh", TAG, "1,1,9999999999", "t a g"], "refused 26 (weights)");
  await bad(["weigh", TAG, "1,1,-1", "t a g"], "weight '-1'");
  await bad(["weigh", TAG, "1,1,1.0001", "t a g"], "at most three decimals");
  await bad(["weigh", TAG, "NoCoda=1 DEP=2", "t a g"], "one for each of NoCoda DEP PARSE");
  for (const [first, second, says] of [["0", "0", "refused 27"], ["0", "1", "refused 27"], ["0", "7", "'7' is no number of 0 to 2"]] as const) {
    await bad(["join", TAG, first, second, "-o", "joined.bin"], says);
  }
  await bad(["join", TAG, "0", "1"], "-o");
});

test("files that cannot be written", () =>
  inFolder(async (folder) => {
    await bad(["join", join(DEMO, "syllable_two"), "0", "3", "-o", "nowhere/file"], "nowhere/file: cannot be written: No such file or directory");
    await bad(["unused", TAG, "-o", "nowhere/file"], "cannot be written");
    await bad(["page", TAG, "-o", "nowhere/file"], "cannot be written");
    await bad(["page", TAG, "-o", folder], "cannot be written: Is a directory");
    await bad(["draw", TAG, "-o", "nowhere"], "nowhere: no such folder");
    assert.deepEqual(readdirSync(folder), []);
  }));

test("unknown commands and options", async () => {
  await bad(["shw", TAG], "invalid choice: 'shw'");
  await bad([], "COMMAND");
  await bad(["show"], "CARD");
  await bad(["show", TAG, "more"], "not understood: more");
  await bad(["typology", TAG, "--fast"], "not understood: --fast");
  await bad(["constructor", TAG], "invalid choice");
});

test("as a program: a reader that leaves, and a status", () => {
  const ran = spawnSync("bash", ["-c", '"$@" | head -n 1; exit ${PIPESTATUS[0]}', "-", join(ROOT, "desk/desk"), "typology", join(DEMO, "contenders")], { encoding: "utf8" });
  assert.deepEqual([ran.status, ran.stderr, ran.stdout], [0, "", "7 languages from 24 rankings of dep, max, no_aa, no_abab\n"]);
  const wrong = spawnSync(join(ROOT, "desk/desk"), ["show", "nowhere"], { encoding: "utf8" });
  assert.deepEqual([wrong.status, wrong.stdout, wrong.stderr], [2, "", "desk: nowhere: no such card\n"]);
});
