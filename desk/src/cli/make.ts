/** `desk make`: card.bin, stdin and the tableaux of a folder's card.txt; with --check whether they are as it says. `desk answers`. */
import { mkdirSync } from "node:fs";
import { dirname, join } from "node:path";
import { ask, Answer } from "../analysis/asking";
import { Engine } from "../engine/engine";
import { BadInput, quoted } from "../model/badInput";
import { allRankings, Card, countsOf, formOf, Line, same } from "../model/card";
import { filesOf } from "../model/cardText";
import { answerLine, commas, digits, machineNames, pairsText, rankingText } from "../model/notation";
import { readText, titleOf } from "./cards";
import { isFile, isFolder, json, print, readBytes, writeWhole } from "./output";

function textOf(path: string): string {
  const file = isFolder(path) ? join(path, "card.txt") : path;
  if (!isFile(file)) throw new BadInput(`${file}: no such card.txt`);
  return file;
}

/** Makes the cards of some folders. A mistake in one stops the others: nothing is written. */
export function make(engine: Engine, paths: readonly string[], check: boolean, asJson: boolean): number {
  const cards = paths.map((path) => {
    const file = textOf(path);
    return { folder: dirname(file), card: readText(engine, file, titleOf(file)) };
  });
  if (check) return checked(engine, cards, asJson);
  const written: string[] = [];
  for (const { folder, card } of cards) {
    for (const [name, contents] of filesOf(card)) {
      const file = join(folder, name);
      if (name.includes("/")) mkdirSync(dirname(file), { recursive: true });
      writeWhole(file, contents);
      written.push(file);
    }
  }
  if (asJson) print(json({ files: written }));
  return 0;
}

function checked(engine: Engine, cards: readonly { folder: string; card: Card }[], asJson: boolean): number {
  const said = cards.map(({ folder, card }) => ({ card: card.title, wrong: wrongIn(engine, folder, card) }));
  if (asJson) print(json(said));
  else for (const { card, wrong } of said) print(`${card}: ${wrong.join("; ") || "right"}`);
  return said.every(({ wrong }) => !wrong.length) ? 0 : 1;
}

/** What is not as card.txt says: its files, stdout by the engine's answers, its tableaux' rows and winners. */
function wrongIn(engine: Engine, folder: string, card: Card): string[] {
  const wrong: string[] = [];
  for (const [name, contents] of filesOf(card)) {
    const file = join(folder, name);
    if (!isFile(file)) wrong.push(`${name} is not there`);
    else if (!same([...readBytes(file)], [...contents])) wrong.push(`${name} is not what card.txt says`);
  }
  const answers = card.lines.map(({ ranking, word }) => ask(engine, card, ranking, word));
  const printed = new TextDecoder().decode(readBytes(join(folder, "stdout"))).split("\n").slice(0, -1);
  const due = [...answers.map((answer) => answerLine(card, answer)), ...closingLines(card, answers)];
  if (printed.length !== due.length) wrong.push(`stdout has ${printed.length} lines, where card.txt asks for ${card.lines.length} and two below them`);
  else {
    const at = printed.findIndex((line, number) => line !== due[number]);
    if (at >= 0) wrong.push(`stdout, line ${at + 1}: ${quoted(printed[at]!)} where the engine answers ${quoted(due[at]!)}`);
  }
  for (const claim of card.claims.filter(({ asked }) => asked)) {
    const best = ask(engine, card, claim.ranking, claim.word);
    for (const { claimed, candidate, counts } of claim.rows) {
      const found = countsOf(card, engine.evaluate(card.bytes, candidate).counts);
      const row = pairsText(card, candidate);
      if (!same(found, counts)) wrong.push(`${row} has the counts ${found.join(",")}, the tableau has ${counts.join(",")}`);
      if (claimed !== (best !== null && same(best.candidate, candidate))) wrong.push(`${row} is${claimed ? "" : " not"} the tableau's winner`);
    }
  }
  for (const { word, forms } of card.winners) {
    const best = allRankings(card.machines.length).map((ranking) => ask(engine, card, ranking, word)).flatMap((answer) => (answer ? [answer] : []));
    const found = best.map(({ candidate, counts }) => ({ form: formOf(candidate).map((symbol) => card.symbols[symbol]).join(""), counts: countsOf(card, counts) }));
    if (found.some((each) => !forms.some((form) => same(form, each)))) wrong.push(`/${commas(word)}/: a best form that is not listed, in ${JSON.stringify(found)}`);
    if (forms.some(({ counts }) => !found.some((each) => same(each.counts, counts)))) wrong.push(`/${commas(word)}/: a listed form whose counts are never the best`);
  }
  return wrong;
}

/** The two lines under the answers: how many are answered and refused, and each machine's counts added up. */
function closingLines(card: Card, answers: readonly Answer[]): string[] {
  const found = answers.flatMap((answer) => (answer ? [answer] : []));
  const totals = card.machines.map((_, machine) => found.reduce((sum, { counts }) => sum + counts[machine]!, 0));
  return [`answered ${found.length} refused ${answers.length - found.length}`, `total ${totals.join(",")}`];
}

/** The card's lines and the engine's answers, as the board has them and in names. */
export function answers(engine: Engine, card: Card, asJson: boolean): number {
  const found = card.lines.map((line) => ({ line, answer: ask(engine, card, line.ranking, line.word) }));
  const asked = ({ ranking, word }: Line) => `${digits(ranking)} ${commas(word)}`;
  if (asJson) {
    print(json(found.map(({ line, answer }) => ({ line: asked(line), answer: answerLine(card, answer) }))));
    return 0;
  }
  for (const { line, answer } of found) {
    print(`${asked(line)}  ->  ${answerLine(card, answer)}`);
    const named = answer && `${machineNames(card).map((name, machine) => `${name} ${answer.counts[machine]}`).join(", ")};  ${pairsText(card, answer.candidate)}`;
    print(`    ${rankingText(card, line.ranking)}  /${line.word.map((symbol) => card.symbols[symbol]).join(" ")}/  ->  ${named ?? answerLine(card, answer)}`);
  }
  print(closingLines(card, found.map(({ answer }) => answer)).join("\n"));
  return 0;
}
