/** card.txt: an author's mistake gets its file, line and reason, and nothing is written; what is written is read again. */
import assert from "node:assert/strict";
import { cpSync, existsSync, mkdirSync, readdirSync, readFileSync, rmSync, writeFileSync } from "node:fs";
import { basename, join } from "node:path";
import { test } from "node:test";
import { cardText, filesOf, Mistake, readCardText } from "../src/model/cardText";
import { Card } from "../src/model/card";
import { CARDS, chance, desk, engine, inFolder, text } from "./running";

const GOOD = `symbols a b
set any = 0 a b

machine m
  states one two
  final one two=3
  arc one -> two  a : a  1
  arc one -> one  b,0 : any  different
  arc two -> one  any : b

machine n
  states one
  final one
  arc one -> one  any : any

line m n / a b
tableau n m / a
> a:a = 4 0  a
  a:b = 9 9  b
claim m n / a
> a:a = 1 0
  verdict refused 21
winners a
  a m 4
`;

const names = (count: number) => Array.from({ length: count }, (_, at) => `s${at}`).join(" ");

/** A line of GOOD, what stands in its place, the line that is named, and what is said. */
const MISTAKES: [string, string, number, string][] = [
  ["symbols a b", "symbols", 1, "no symbol is named"],
  ["symbols a b", "symbols a a", 1, "the symbol 'a' is named twice"],
  ["symbols a b", "symbols 0 a b", 1, "'0' cannot name a symbol"],
  ["symbols a b", "symbols a:b b", 1, "'a:b' cannot name a symbol"],
  ["symbols a b", `symbols a b ${names(62)}`, 1, "64 symbols, more than 63"],
  ["set any = 0 a b", "symbols c", 2, "one line of symbols"],
  ["set any = 0 a b", "set any 0 a b", 2, "the form is: set NAME = NAME .."],
  ["set any = 0 a b", "set any = 0 a q", 2, "no symbol or set 'q'; there are 0 a b"],
  ["set any = 0 a b", "set a = b", 2, "'a' names something else already"],
  ["machine m", "machine", 4, "the form is: machine NAME"],
  ["machine m", "machin m", 4, "'machin' starts no line"],
  ["machine m", "# machine m", 5, "'states' stands in no machine"],
  ["machine n", "machine m", 11, "the machine 'm' is named twice"],
  ["  states one two", "  states one one", 5, "the state 'one' is named twice"],
  ["  states one two", `  states ${names(33)}`, 5, "33 states, more than 32"],
  ["  states one two", "", 6, "'final' before the machine's states"],
  ["  final one two=3", "", 4, "the machine 'm' has no line 'final'"],
  ["  final one two=3", "  final one three", 6, "no state 'three'; there are one two"],
  ["  final one two=3", "  final one two=16", 6, "ending marks '16' is no number of 0 to 15"],
  ["  final one two=3", "  final one two=x", 6, "ending marks 'x' is no number of 0 to 15"],
  ["  arc one -> two  a : a  1", "  arc one two a : a", 7, "the form is: arc FROM -> TO"],
  ["  arc one -> two  a : a  1", "  arc one -> three  a : a", 7, "no state 'three'"],
  ["  arc one -> two  a : a  1", "  arc one -> two  a : c", 7, "no symbol or set 'c'"],
  ["  arc one -> two  a : a  1", "  arc one -> two  a : a  16", 7, "marks '16' is no number of 0 to 15"],
  ["  arc one -> two  a : a  1", "  arc one -> two  a : a  1 other", 7, "the form is: arc FROM -> TO"],
  ["  arc two -> one  any : b", "  arc one -> one  any : b", 9, "the arc at line 8 takes 0:b from one too"],
  ["machine n", "  join x = m", 11, "the form is: join NAME = MACHINE MACHINE"],
  ["line m n / a b", "join x = m o", 16, "no machine 'o'; there are m n"],
  ["line m n / a b", "join x = m m", 16, "a machine is not joined to itself"],
  ["line m n / a b", "line m n a b", 16, "the form is: line MACHINE .. / SYMBOL .."],
  ["line m n / a b", "line m o / a b", 16, "no machine 'o'"],
  ["line m n / a b", "line m m / a b", 16, "a ranking has each machine once: m n"],
  ["line m n / a b", "line m n / a c", 16, "no symbol 'c'"],
  ["line m n / a b", "line m n / a 0", 16, "the empty symbol is in no word"],
  ["line m n / a b", `line m n /${" a".repeat(25)}`, 16, "a word of 25 symbols, more than 24"],
  ["line m n / a b", "> a:a = 1 2", 16, "'>' starts no line"],
  ["> a:a = 4 0  a", "> a:a 4 0", 18, "the form of a row is"],
  ["> a:a = 4 0  a", "> aa = 4 0", 18, "'aa' is no pair IN:OUT"],
  ["> a:a = 4 0  a", "> a:c = 4 0", 18, "no symbol 'c'"],
  ["> a:a = 4 0  a", "> a:a 0:0 = 4 0", 18, "0:0 is no pair"],
  ["> a:a = 4 0  a", "> b:a = 4 0", 18, "the row spells /b/, the word is /a/"],
  ["> a:a = 4 0  a", "> a:a = 4", 18, "a row has 2 counts"],
  ["> a:a = 4 0  a", "> a:a = 4 x", 18, "the count 'x' is no number"],
  ["> a:a = 4 0  a", "a:a = 4 0", 17, "no row of the tableau is marked with >"],
  ["  a:b = 9 9  b", "> a:b = 9 9  b", 19, "a second row with >"],
  ["  verdict refused 21", "  verdict wrong", 22, "no verdict: 'wrong'"],
  ["winners a", "verdict refused 21\nwinners b\n verdict refused 3", 25, "a verdict under no claim"],
  ["winners a", "winners c", 23, "no symbol 'c'"],
  ["  a m 4", "  a m", 24, "the form of a winner is: FORM MACHINE COUNT .."],
  ["  a m 4", "  a o 4", 24, "no machine 'o'"],
  ["  a m 4", "machine late", 24, "a machine after the lines that rank the machines"],
];

const own = (folder: string) => {
  mkdirSync(join(folder, "own"), { recursive: true });
  return join(folder, "own", "card.txt");
};

async function mistaken(folder: string, said: string, line: number, reason: string): Promise<void> {
  const path = own(folder);
  writeFileSync(path, said);
  const { status, out, err } = await desk("make", join(folder, "own"));
  assert.deepEqual([status, out, err.split("\n").length], [2, "", 2], err);
  assert.ok(err.startsWith(`desk: ${path}:${line}: `), `${err} at ${line}`);
  assert.ok(err.includes(reason), `${err} does not say ${reason}`);
  assert.deepEqual(readdirSync(join(folder, "own")), ["card.txt"]);
}

test("a good card is made", () =>
  inFolder(async (folder) => {
    writeFileSync(own(folder), GOOD);
    assert.equal(await text(["make", "own"]), "");
    assert.equal(readFileSync("own/tableaux/verdicts", "utf8").split("\n")[1], "2.bin 01 1 refused 21");
    assert.ok(existsSync("own/card.bin"));
  }));

test("mistakes", () =>
  inFolder(async (folder) => {
    for (const [line, wrong, number, reason] of MISTAKES) {
      assert.equal(GOOD.split(`${line}\n`).length, 2, line);
      await mistaken(folder, GOOD.replace(`${line}\n`, `${wrong}\n`), number, reason);
    }
  }));

test("mistakes of size", () =>
  inFolder(async (folder) => {
    const machine = (number: number, states: string) => `machine m${number}\n  states ${states}\n  final s0\n`;
    const marked = (name: string) => `machine ${name}\n  states s0\n  final s0=1\n`;
    await mistaken(folder, `symbols a\n${Array.from({ length: 7 }, (_, at) => machine(at, "s0")).join("")}`, 20, "7 machines, more than 6");
    await mistaken(folder, `symbols a\n${machine(0, names(5))}${machine(1, names(32))}`, 5, "make 160, more than 128");
    await mistaken(folder, `symbols a\n${machine(0, names(7))}${machine(1, names(5))}join j = m0 m1\n`, 8, "35 states, more than 32");
    await mistaken(folder, `symbols a\n${marked("x")}${marked("y")}join j = x y\n`, 8, "both 'x' and 'y' have marks");
    await mistaken(folder, "# nothing\n", 1, "a card has symbols");
    await mistaken(folder, "symbols a\n", 1, "a card has a machine");
    await mistaken(folder, `symbols a\n${machine(0, "s0")}tableau m0 / a\n${Array.from({ length: 33 }, (_, at) => `  a:a = ${at}\n`).join("")}`, 38, "more than 32 rows");
    await mistaken(folder, `symbols a\n${machine(0, "s0")}${"line m0 / a\n".repeat(1001)}`, 1005, "more than 1000 lines");
  }));

test("not text; a folder without card.txt; one card's mistake stops the others", () =>
  inFolder(async (folder) => {
    const path = own(folder);
    writeFileSync(path, Uint8Array.from([...Buffer.from("symbols a\n# "), 255, 10]));
    assert.equal((await desk("make", "own")).err, "desk: own/card.txt:2: not UTF-8 text\n");
    assert.equal((await desk("make", folder)).err, `desk: ${folder}/card.txt: no such card.txt\n`);
    mkdirSync("good");
    writeFileSync("good/card.txt", GOOD);
    writeFileSync(path, "symbols\n");
    assert.equal((await desk("make", "good", "own")).err, "desk: own/card.txt:1: no symbol is named\n");
    assert.deepEqual(readdirSync("good"), ["card.txt"]);
  }));

test("what is checked: files, answers, counts, winners", () =>
  inFolder(async () => {
    cpSync(CARDS.find((folder) => basename(folder) === "tag")!, "tag", { recursive: true });
    assert.equal(await text(["make", "--check", "tag"]), "tag: right\n");
    const said = readFileSync("tag/stdout", "utf8");
    writeFileSync("tag/stdout", said.replace("0,0,1", "0,0,2"));
    assert.ok((await text(["make", "--check", "tag"], 1)).includes("stdout, line 1: '0,0,2 1:1 2:2 0:5 3:0' where the engine answers '0,0,1 1:1 2:2 0:5 3:0'"));
    writeFileSync("tag/stdout", said.split("\n").slice(1).join("\n"));
    assert.ok((await text(["make", "--check", "tag"], 1)).includes("where card.txt asks for"));
    writeFileSync("tag/stdout", said);
    writeFileSync("tag/card.txt", readFileSync("tag/card.txt", "utf8").replace("= 0 0 1", "= 0 0 2"));
    const wrong = await text(["make", "--check", "tag"], 1);
    assert.ok(wrong.includes("has the counts 0,0,1, the tableau has 0,0,2") && wrong.includes("tableaux/1.bin is not what card.txt says"), wrong);
    rmSync("tag/card.bin");
    assert.ok((await text(["make", "--check", "tag"], 1)).includes("card.bin is not there"));
  }));

test("the demo is made byte for byte, from any folder", () =>
  inFolder(async () => {
    for (const folder of CARDS) {
      const name = basename(folder);
      mkdirSync(name);
      for (const file of ["card.txt", "stdout"]) writeFileSync(join(name, file), readFileSync(join(folder, file)));
      await text(["make", name]);
      for (const file of filesOf(readCardText(engine, name, readFileSync(join(folder, "card.txt"), "utf8"))).keys()) {
        assert.deepEqual([...readFileSync(join(name, file))], [...readFileSync(join(folder, file))], `${name}/${file}`);
      }
      assert.equal(await text(["make", "--check", name]), `${name}: right\n`);
    }
  }));

/** A card without its bytes, with its lines in an order of their own. */
const contents = (card: Card) => JSON.stringify({ ...card, bytes: [...card.bytes], lines: card.lines.map((line) => JSON.stringify(line)).sort() }, (_, value) => (typeof value === "bigint" ? String(value) : (value as unknown)));

test("a card written as card.txt is read as the same card", () => {
  for (const said of [GOOD, ...CARDS.map((folder) => readFileSync(join(folder, "card.txt"), "utf8"))]) {
    const card = readCardText(engine, "card", said);
    assert.equal(contents(readCardText(engine, "card", cardText(card))), contents(card));
  }
});

test("a byte order mark, other line ends and decomposed letters are read as the composed text", () => {
  const composed = GOOD.replace(/\ba\b/g, "\u00e1");
  const other = `\uFEFF${composed.normalize("NFD").replace(/\n/g, "\r\n")}`;
  assert.equal(contents(readCardText(engine, "card", other)), contents(readCardText(engine, "card", composed)));
});

const ODD = ["", "0", "-1", "16", "999", "x", ":", "=", "/", ">", "->", ",", "a,b", "0:0", "a:", "=3", "é", "#", "verdict", "winners", "join", "arc"];

test("card.txt damaged by chance: a mistake with its line, or a card that the engine accepts", () => {
  const random = chance(35);
  let [mistakes, accepted] = [0, 0];
  for (const folder of CARDS) {
    const lines = readFileSync(join(folder, "card.txt"), "utf8").split("\n").map((line) => line.replace(/#.*/, "").split(/\s+/).filter((word) => word)).filter((line) => line.length);
    const words = [...lines.flat(), ...ODD];
    for (let turn = 0; turn < 100; turn++) {
      const wrong = lines.map((line) => [...line]);
      for (let times = 1 + random(3); times; times--) {
        const line = random(wrong.length);
        const at = random(Math.max(1, wrong[line]!.length));
        switch (random(6)) {
          case 0: wrong[line]!.splice(at, 1); break;
          case 1: wrong[line]!.splice(at, 0, ...wrong[line]!.slice(at, at + 1)); break;
          case 2: wrong[line]!.splice(at, 1, words[random(words.length)]!); break;
          case 3: wrong.splice(random(wrong.length), 0, ...wrong.splice(line, 1)); break;
          case 4: wrong.splice(random(wrong.length), 0, [...wrong[line]!]); break;
          default: if (wrong.length > 1) wrong.splice(line, 1);
        }
      }
      const said = `${wrong.map((line) => line.join(" ")).join("\n")}\n`;
      try {
        const card = readCardText(engine, "card", said);
        engine.readPart(card.bytes, 0);
        card.claims.forEach((claim, at) => assert.equal(filesOf(card).get(`tableaux/${at + 1}.bin`)![0], claim.rows.length));
        accepted++;
      } catch (error) {
        assert.ok(error instanceof Mistake, `${String(error)}\n${said}`);
        assert.ok(error.line >= 1 && error.line <= wrong.length, `${error.message}\n${said}`);
        mistakes++;
      }
    }
  }
  assert.ok(mistakes > 300 && accepted > 30, `${mistakes} mistakes, ${accepted} cards`);
});
