/** The commands: each takes what was typed, asks, and shows the answer as text or JSON. It answers the status. */
import { join } from "node:path";
import { conditionText, waysText } from "../analysis/conditions";
import { refusal, whereRefused } from "../analysis/diagnosis";
import { hear, wordCount } from "../analysis/hearing";
import { join as joinMachines } from "../analysis/joining";
import { judge, readRows } from "../analysis/judging";
import { findRanking, rankingJson, Wanted } from "../analysis/ranking";
import { marks, Tableau, tableauJson, tableauOf, withForm } from "../analysis/tableau";
import { tiesLeftOut } from "../analysis/ties";
import { arcText, PROMISE, trim } from "../analysis/trimming";
import { askEssential, typologyJson, typologyOf } from "../analysis/typology";
import { decimal, readWeights, weigh } from "../analysis/weighing";
import { machineSvg } from "../drawing/machine";
import { Engine } from "../engine/engine";
import { Refused } from "../engine/refusals";
import { Ranking, Word } from "../engine/results";
import { BadInput, counted, quoted } from "../model/badInput";
import { Card, countsOf, rankedMachines, same, spelledBy, tableauBytes, wordsOf } from "../model/card";
import { KINDS, symbolsOf } from "../model/machine";
import { answerLine, commas, digits, formText, machineNames, pairsText, rankingText, readCandidate, readGiven, readMachine, readRanking, readSets, readWord, wordText } from "../model/notation";
import { cardFile, load, placeOf } from "./cards";
import { isFile, isFolder, json, painted, print, readBytes, table, writeWhole } from "./output";
import { run } from "./running";

/** What was typed behind the command. */
export interface Asked {
  readonly json: boolean;
  readonly words: readonly string[];
  readonly file: string | null;
  readonly rankings: readonly string[];
}

const HAND = "☞";

export function show(engine: Engine, path: string, asked: Asked): number {
  if (!path.endsWith(".txt") || isFolder(path)) {
    const file = placeOf(path);
    const bytes = cardFile(file);
    const number = refusal(engine, bytes);
    if (number) throw new BadInput(`${file}: ${new Refused(number).message}: ${whereRefused(engine, bytes, number)}`);
  }
  const card = load(engine, path);
  print(asked.json ? json(cardJson(card)) : cardInWords(card));
  return 0;
}

function cardJson(card: Card): object {
  return {
    symbols: card.symbols.slice(1),
    machines: card.machines.map(({ name, states, arcs }) => ({
      name,
      states: states.map((state) => ({ name: state.name, ending: state.ending })),
      arcs: arcs.map(({ from, to, marks: count, kind, inputs, outputs }) => ({ from, to, marks: count, kind: KINDS.indexOf(kind), in: symbolsOf(inputs), out: symbolsOf(outputs) })),
    })),
  };
}

function cardInWords(card: Card): string {
  const product = card.machines.reduce((all, { states }) => all * states.length, 1);
  const head = `${card.title}: ${counted(card.machines.length, "machine")}, ${counted(card.symbols.length - 1, "symbol")}, ${card.bytes.length} bytes; ${product} of at most 128 joint states`;
  const symbols = `symbols: ${card.symbols.slice(1).map((name, at) => `${name} ${at + 1}`).join("  ")}  (0 is the empty one)`;
  const ending = (count: number | null) => (count === null ? "" : count === 0 ? "final" : `final, ${counted(count, "mark")}`);
  const machines = card.machines.map((machine, number) => {
    const name = machine.name === String(number) ? `machine ${number}` : `machine ${number}, ${machine.name}`;
    const lines = [
      `${painted(name, "bold")}: ${counted(machine.states.length, "state")}, ${counted(machine.arcs.length, "arc")}`,
      table(machine.states.map((state, at) => ["  state", state.name, at === 0 ? "start" : "", ending(state.ending)])),
    ];
    if (machine.arcs.length) lines.push(table(machine.arcs.map((arc, at) => ["  arc", String(at), arcText(card, machine, arc)])));
    return lines.join("\n");
  });
  return [`${head}\n\n${symbols}`, ...machines].join("\n\n");
}

export async function tableau(engine: Engine, card: Card, asked: Asked): Promise<number> {
  const [typedRanking, typedWord, ...named] = asked.words as [string, string, ...string[]];
  const [ranking, word] = [readRanking(card, typedRanking), readWord(card, typedWord)];
  const candidates = named.map((text) => {
    const given = readGiven(card, word, text);
    return "pairs" in given ? given.pairs : withForm(engine, card, ranking, word, given.form).candidate;
  });
  const made = await run(tableauOf(engine, card, ranking, word, candidates));
  print(asked.json ? json(tableauJson(card, made)) : tableauInWords(card, made));
  return made.rows.length ? 0 : 1;
}

function tableauInWords(card: Card, { ranking, word, rows, ties }: Tableau): string {
  const head = `${wordText(card, word)}  ${rankingText(card, ranking)}`;
  if (!rows.length) return `${head}\n\nno complete candidate: no ranking gives this word a form`;
  const best = rows[0]!.counts;
  const lines = rows.map((row) => {
    const cells = ranking.map((machine) => {
      const fatal = row.decided === machine;
      const text = marks(row.counts[machine]!, fatal, best[machine]!);
      return fatal ? painted(text, "red") : text;
    });
    const form = formText(card, row.candidate);
    const note = row.tie ? `  ties with ${formText(card, rows[0]!.candidate)}` : row.decided === null && !row.winner ? "  (ties with the answer)" : "";
    const shown = row.winner || row.tie ? [painted(HAND, "bold"), painted(form, "bold")] : ["", form];
    return [...shown, ...cells, pairsText(card, row.candidate) + note];
  });
  const more = tiesLeftOut(ties);
  return `${head}\n\n${table([["", "", ...ranking.map((machine) => card.machines[machine]!.name), ""], ...lines])}${more ? `\n\nnot all ties are listed: ${more}` : ""}`;
}

/** The words that are named, the card's own where none is. */
function wordsOr(card: Card, path: string, texts: readonly string[]): readonly Word[] {
  const words = texts.length ? texts.map((text) => readWord(card, text)) : wordsOf(card);
  if (!words.length) throw new BadInput(`${path}: the card has no lines of its own: name some words`);
  return words;
}

export async function typology(engine: Engine, card: Card, asked: Asked, path: string): Promise<number> {
  const words = wordsOr(card, path, asked.words);
  const made = typologyOf(engine, card, await run(askEssential(engine, card, words)));
  if (asked.json) {
    print(json(typologyJson(card, made)));
    return 0;
  }
  const of = counted(made.languages.reduce((sum, { rankings }) => sum + rankings.length, 0), "ranking");
  const parts = made.languages.map(({ answers, rankings, ways }, at) => {
    const smallest = rankings[0]!;
    const rows = words.map((word, number) => {
      const answer = answers[number];
      const shown = answer ? [formText(card, answer.candidate), countsOf(card, answer.counts).join(","), pairsText(card, answer.candidate)] : ["(no candidate)", "", ""];
      return [`  ${wordText(card, word)}`, "->", ...shown];
    });
    const picked = waysText(card, ways);
    const head = `${painted(`language ${at + 1}`, "bold")}: ${rankings.length} of ${of}, the smallest ${digits(smallest)}: ${rankingText(card, smallest)}`;
    return `${head}\n${table(rows)}\n  ${picked ? `exactly when ${picked}` : "under every ranking"}`;
  });
  const ranked = rankedMachines(card).map((machine) => machineNames(card)[machine]!);
  const idle = machineNames(card).filter((name) => !ranked.includes(name));
  const note = idle.length ? `; without marks, and in no ranking: ${idle.join(", ")}` : "";
  print([`${counted(made.languages.length, "language")} from ${of} of ${ranked.join(", ")}${note}`, ...parts].join("\n\n"));
  return 0;
}

export async function rank(engine: Engine, card: Card, asked: Asked): Promise<number> {
  const wanted = asked.words.map((text) => {
    const sign = text.indexOf("=");
    if (sign < 0) throw new BadInput(`${quoted(text)}: a word and its candidate are written WORD=CANDIDATE`);
    return { word: readWord(card, text.slice(0, sign)), candidate: readCandidate(card, text.slice(sign + 1)) };
  });
  const found = await run(findRanking(engine, card, wanted));
  const shown = ({ word, candidate }: Wanted) => `${wordText(card, word)} -> ${formText(card, candidate)}  (${pairsText(card, candidate)})`;
  if (asked.json) print(json(rankingJson(found)));
  else if (found.ranking === null) {
    print(`no ranking makes ${found.contradict.length > 1 ? "these" : "this"} the best:`);
    for (const each of found.contradict) {
      print(`  ${shown(each)}`);
      for (const condition of each.conditions) print(`      needs ${conditionText(card, condition)}`);
    }
  } else {
    print(`${digits(found.ranking)}: ${rankingText(card, found.ranking)}`);
    found.wanted.forEach((each, at) => {
      const { candidate } = found.answers[at]!;
      print(`  ${shown(each)}${same(candidate, each.candidate) ? "" : `; ties with the answer, ${pairsText(card, candidate)}`}`);
    });
    print(`  needed: ${found.needed.map((each) => conditionText(card, each)).join("; ") || "nothing, every ranking will do"}`);
  }
  return found.ranking === null ? 1 : 0;
}

export function judgeTableaux(engine: Engine, card: Card, asked: Asked): number {
  const sent = asked.words.length ? [typedTableau(card, asked.words)] : card.claims.map(({ ranking, word, rows }) => ({ ranking, word, tableau: tableauBytes(rows) }));
  if (!sent.length) throw new BadInput(`${card.title} has no tableaux of its own: give a ranking, a word and rows`);
  const said = sent.map(({ ranking, word, tableau: bytes }) => ({ ranking, word, ...judge(engine, card, ranking, word, bytes) }));
  if (asked.json) print(json(said.map(({ ranking, word, short }) => ({ ranking: digits(ranking), word: commas(word), verdict: short }))));
  else for (const { ranking, word, short, more } of said) print(`${wordText(card, word)}  ${rankingText(card, ranking)}: ${painted(short, "bold")}: ${more}`);
  return said.every(({ short }) => short === "right") ? 0 : 1;
}

function typedTableau(card: Card, texts: readonly string[]): { ranking: Ranking; word: Word; tableau: Uint8Array } {
  if (texts.length < 3) throw new BadInput("what is judged is a ranking, a word, and rows or a tableau's file");
  const [ranking, word, ...rows] = texts as [string, string, ...string[]];
  const file = rows.length === 1 && (isFile(rows[0]!) || !/[:=]/.test(rows[0]!));
  const bytes = file ? readBytes(rows[0]!) : tableauBytes(readRows(card, rows));
  return { ranking: readRanking(card, ranking), word: readWord(card, word), tableau: bytes };
}

export async function weighWord(engine: Engine, card: Card, asked: Asked): Promise<number> {
  const [text, typed] = asked.words as [string, string];
  const [weights, word] = [readWeights(card, text), readWord(card, typed)];
  const { best, agree, of } = await run(weigh(engine, card, weights, word));
  if (best === null) {
    print(asked.json ? json({ answer: "refused 10" }) : `${wordText(card, word)}: no complete candidate`);
    return 1;
  }
  if (asked.json) {
    print(json({ answer: answerLine(card, best), sum: best.sum, rankings: agree.length, smallest: agree.length ? digits(agree[0]!) : null }));
    return 0;
  }
  const rows = card.machines.map(({ name }, machine) => {
    const [weight, count] = [weights[machine]!, best.counts[machine]!];
    return [name, decimal(weight), String(count), decimal(BigInt(weight) * BigInt(count))];
  });
  print(`${wordText(card, word)} -> ${painted(formText(card, best.candidate), "bold")}  (${pairsText(card, best.candidate)})\n`);
  print(table([["", "weight", "count", "product"], ...rows, ["sum", "", "", decimal(best.sum)]]));
  print(agree.length ? `\nagrees with ${agree.length} of ${of} rankings, the smallest ${digits(agree[0]!)}: ${rankingText(card, agree[0]!)}` : `\nno ranking agrees: none of the ${of} makes this the best`);
  return 0;
}

export function sets(engine: Engine, card: Card, asked: Asked): number {
  const [text, typed] = asked.words as [string, string];
  const [ranking, heard] = [readRanking(card, text), readSets(card, typed)];
  const best = hear(engine, card, ranking, heard, `ranking ${quoted(text)}, sets ${quoted(typed)}`);
  if (best === null) {
    print(asked.json ? json({ word: null, answer: "refused 10" }) : "no complete candidate for any of these words");
    return 1;
  }
  const word = spelledBy(best.candidate);
  if (asked.json) {
    print(json({ word: commas(word), answer: answerLine(card, best) }));
    return 0;
  }
  print(`${counted(wordCount(heard), "word")} perhaps heard, ${rankingText(card, ranking)}`);
  const counts = card.machines.map(({ name }, machine) => `${name} ${best.counts[machine]}`).join(", ");
  print(`${wordText(card, word)} -> ${painted(formText(card, best.candidate), "bold")}  (${pairsText(card, best.candidate)})  ${counts}`);
  return 0;
}

export async function joinTwo(engine: Engine, card: Card, asked: Asked): Promise<number> {
  const [first, second, ...texts] = asked.words as [string, string, ...string[]];
  const made = await run(joinMachines(engine, card, readMachine(card, first), readMachine(card, second), texts.map((text) => readWord(card, text))));
  const alike = made.lines.filter((line) => line.alike).length;
  writeWhole(asked.file!, made.card.bytes);
  if (asked.json) print(json({ card: asked.file, bytes: made.card.bytes.length, lines: made.lines.length, alike }));
  else {
    print(`${asked.file}: ${counted(made.card.machines.length, "machine")}, ${made.card.bytes.length} bytes; ${card.machines[made.gone]!.name} has no marks and left the rankings`);
    const rows = made.lines.map(({ line, ranking, answer, alike: equal }) => [digits(line.ranking), "->", digits(ranking), wordText(card, line.word), answer ? formText(card, answer.candidate) : "(no candidate)", equal ? "alike" : "NOT ALIKE"]);
    if (rows.length) print(table(rows, "  "));
    print(`${alike} of ${counted(made.lines.length, "line")} answered alike`);
  }
  return alike === made.lines.length ? 0 : 1;
}

export async function unused(engine: Engine, card: Card, asked: Asked, path: string): Promise<number> {
  const words = wordsOr(card, path, asked.words);
  const made = await run(trim(engine, card, words, asked.rankings.map((text) => readRanking(card, text))));
  if (asked.file !== null) writeWhole(asked.file, made.trimmed.bytes);
  const listed = made.unused.flatMap((arcs, machine) => arcs.map((arc) => ({ machine, arc })));
  if (asked.json) {
    print(json({ answers: made.answered, unused: listed, card: asked.file }));
    return 0;
  }
  print(`${listed.length} of ${card.machines.reduce((sum, { arcs }) => sum + arcs.length, 0)} arcs are travelled by none of ${made.answered} answers`);
  for (const { machine, arc } of listed) print(`  ${card.machines[machine]!.name}: arc ${arc}  ${arcText(card, card.machines[machine]!, card.machines[machine]!.arcs[arc]!)}`);
  print(`without one of them each answer stays as it is (${PROMISE}), so the others can be left out after it`);
  if (asked.file !== null) print(`${asked.file}: the card without them; ${made.same} of ${made.answered} answers asked again are the same`);
  return 0;
}

export function draw(card: Card, asked: Asked): number {
  const folder = asked.file ?? ".";
  const pictures = card.machines.map((machine) => machineSvg(card, machine));
  if (!isFolder(folder)) throw new BadInput(`${folder}: no such folder`);
  const files = card.machines.map(({ name }, number) => {
    const safe = name.replace(/[^\p{L}\p{N}_.-]/gu, "_");
    const file = safe === String(number) ? `${number}.svg` : `${number}-${safe}.svg`;
    return folder === "." ? file : join(folder, file);
  });
  files.forEach((file, at) => writeWhole(file, `<?xml version="1.0" encoding="UTF-8"?>\n${pictures[at]}\n`));
  print(asked.json ? json({ files }) : files.join("\n"));
  return 0;
}

/** The page with the card inside, before its own examples. */
export function page(card: Card, asked: Asked, path: string, html: string, text: string | null): number {
  const words = wordsOr(card, path, asked.words);
  const file = asked.file ?? `${card.title}.html`;
  const own = { name: card.title, said: "", ...(text === null ? { bytes: Buffer.from(card.bytes).toString("base64") } : { text }), words };
  const made = html.replace(/(<script type="application\/json" id="examples">)(.*?)(<\/script>)/s, (_, before: string, examples: string, behind: string) => {
    const others = (JSON.parse(examples) as { name: string }[]).filter(({ name }) => name !== card.title);
    return `${before}${JSON.stringify([own, ...others]).replace(/</g, "\\u003c")}${behind}`;
  });
  writeWhole(file, made);
  print(asked.json ? json({ file }) : file);
  return 0;
}

