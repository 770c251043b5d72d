/** The command line: what a command takes, and how it ends. */
import { dirname, join } from "node:path";
import { Engine } from "../engine/engine";
import { Refused } from "../engine/refusals";
import { BadInput, quoted } from "../model/badInput";
import { Card } from "../model/card";
import { load, placeOf } from "./cards";
import { Asked, draw, joinTwo, judgeTableaux, page, rank, sets, show, tableau, typology, unused, weighWord } from "./commands";
import { answers, make } from "./make";
import { isFile, print, readBytes, sink } from "./output";
import { Stopped } from "./running";

const STATUS = `CARD is a card.bin, a card.txt or the folder that has one. RANKING is digits, 012, or names, 'NoCoda >> DEP >> PARSE', the highest first.
WORD is 1,2,3 or 't a g', and '' the empty word. A CANDIDATE is '1:1 2:2 3:0' or 't:t a:a g:0'.
Status: 0; 1 where the answer is a no (no candidate, no ranking, a tableau that is not right); 2 for bad input; 130 when stopped.`;
const STOPPED = 130;
const OWN = "the card's own where none is named";

interface Command {
  readonly help: string;
  /** What stands behind the command, the last one any number of times where it ends in `..`, at least once where it ends in `+`. */
  readonly takes: readonly string[];
  readonly options: readonly string[];
  /** Options that have to be there. */
  readonly needs?: readonly string[];
  run(given: Given): number | Promise<number>;
}

interface Given extends Asked {
  readonly engine: Engine;
  readonly path: string;
  readonly card: Card;
  readonly check: boolean;
  readonly html: string;
}

const COMMANDS: Record<string, Command> = {
  show: { help: "the card in words; of a refused card where it is refused", takes: ["CARD"], options: [], run: (given) => show(given.engine, given.path, given) },
  tableau: { help: "a word's tableau under a ranking", takes: ["CARD", "RANKING", "WORD", "CANDIDATE .."], options: [], run: (given) => tableau(given.engine, given.card, given) },
  typology: { help: `every language of all rankings; words: ${OWN}`, takes: ["CARD", "WORD .."], options: [], run: (given) => typology(given.engine, given.card, given, given.path) },
  rank: { help: "the smallest ranking that makes candidates the best", takes: ["CARD", "WORD=CANDIDATE +"], options: [], run: (given) => rank(given.engine, given.card, given) },
  judge: {
    help: "whether a tableau is right; the card's own tableaux where none is given. A ROW is '> IN:OUT .. = COUNT ..', > before the claimed one; or ROW is the tableau's file",
    takes: ["CARD", "RANKING WORD ROW .."],
    options: [],
    run: (given) => judgeTableaux(given.engine, given.card, given),
  },
  weigh: { help: "the best by weights, '3,2.5,1' or 'NoCoda=3 DEP=2.5 PARSE=1', and the ranking that agrees", takes: ["CARD", "WEIGHTS", "WORD"], options: [], run: (given) => weighWord(given.engine, given.card, given) },
  sets: { help: "the best over all words perhaps heard, 't|d a g' or 1|4,2,3", takes: ["CARD", "RANKING", "SETS"], options: [], run: (given) => sets(given.engine, given.card, given) },
  join: { help: `two machines as one: writes the new card to -o FILE; words: ${OWN}`, takes: ["CARD", "FIRST", "SECOND", "WORD .."], options: ["-o"], needs: ["-o"], run: (given) => joinTwo(given.engine, given.card, given) },
  unused: {
    help: `the arcs that no answer travels; -o FILE writes the card without them; --ranking names a ranking to answer under, all of them where none is named; words: ${OWN}`,
    takes: ["CARD", "WORD .."],
    options: ["-o", "--ranking"],
    run: (given) => unused(given.engine, given.card, given, given.path),
  },
  draw: { help: "each machine as SVG, in the folder -o FOLDER", takes: ["CARD"], options: ["-o"], run: (given) => draw(given.card, given) },
  page: {
    help: `the page of one file with this card inside, -o FILE; words: ${OWN}`,
    takes: ["CARD", "WORD .."],
    options: ["-o"],
    run: (given) => page(given.card, given, given.path, given.html, textBeside(given.path, given.card)),
  },
  answers: { help: "the card's lines with their answers, in names", takes: ["CARD"], options: [], run: (given) => answers(given.engine, given.card, given.json) },
  make: {
    help: "card.bin, stdin and the tableaux of each folder's card.txt; --check says whether they are as it says, and its stdout the engine's answers",
    takes: ["FOLDER +"],
    options: ["--check"],
    run: (given) => make(given.engine, given.words, given.check, given.json),
  },
};

/** The card.txt that a card's names are from. */
function textBeside(path: string, card: Card): string | null {
  if (!card.named) return null;
  const file = path.endsWith(".txt") && isFile(path) ? path : join(dirname(placeOf(path)), "card.txt");
  return new TextDecoder().decode(readBytes(file));
}

function usage(name: string, { takes, options }: Command): string {
  const options_ = options.map((option) => (option === "--check" ? "[--check]" : `[${option} ${option === "-o" ? "FILE" : "RANKING"}]`));
  return ["desk", name, ...takes.map((each) => each.replace(/ \+$/, " ..")), ...options_, "[--json]"].join(" ");
}

function help(name: string | null): string {
  if (name !== null) return `${usage(name, COMMANDS[name]!)}\n\n${COMMANDS[name]!.help}\n\n${STATUS}`;
  const lines = Object.entries(COMMANDS).map(([each, { help: said }]) => `  ${each.padEnd(9)} ${said}`);
  return ["desk COMMAND ..: cards, tableaux and typologies over all candidates, from a proved engine.", "", ...lines, "", STATUS].join("\n");
}

interface Typed {
  readonly words: string[];
  readonly options: Map<string, string[]>;
  readonly help: boolean;
}

/** Options may stand among the words; behind -- nothing is an option. */
function parse(name: string, { options }: Command, given: readonly string[]): Typed {
  const typed: Typed & { help: boolean } = { words: [], options: new Map(), help: false };
  const left = [...given];
  while (left.length) {
    const word = left.shift()!;
    if (word === "--") typed.words.push(...left.splice(0));
    else if (word === "-h" || word === "--help") typed.help = true;
    else if (word === "--json" || (word === "--check" && options.includes(word))) typed.options.set(word, []);
    else if (options.includes(word)) {
      const value = left.shift();
      if (value === undefined) throw new BadInput(`${name}: ${word} needs a value`);
      typed.options.set(word, [...(typed.options.get(word) ?? []), value]);
    } else if (/^-{1,2}[a-z]/i.test(word)) throw new BadInput(`not understood: ${word}`);
    else typed.words.push(word);
  }
  return typed;
}

/** The engine and the page: both are in dist/pastaspur.html, two folders above the program. Read once. */
let whole: { html: string; engine: Engine } | null = null;

function inPage(): { html: string; engine: Engine } {
  if (!whole) {
    const html = pageText();
    whole = { html, engine: engineIn(html) };
  }
  return whole;
}

function pageText(): string {
  const file = process.env["PASTASPUR_PAGE"] ?? join(__dirname, "..", "..", "dist", "pastaspur.html");
  if (!isFile(file)) throw new BadInput("dist/pastaspur.html is not there, which has the engine inside: run targets/build wasm32 and desk/build");
  return new TextDecoder().decode(readBytes(file));
}

function engineIn(text: string): Engine {
  const found = /<script type="text\/plain" id="engine">([^<]*)</.exec(text);
  if (!found) throw new BadInput("dist/pastaspur.html has no engine inside: run desk/build");
  return Engine.load(new Uint8Array(Buffer.from(found[1]!, "base64")));
}

async function ran(typedWords: readonly string[]): Promise<number> {
  const [name, ...rest] = typedWords;
  if (name === "-h" || name === "--help") {
    print(help(null));
    return 0;
  }
  if (name === undefined) throw new BadInput(`the following arguments are required: COMMAND: ${Object.keys(COMMANDS).join(", ")}`);
  const command = Object.prototype.hasOwnProperty.call(COMMANDS, name) ? COMMANDS[name]! : null;
  if (!command) throw new BadInput(`argument COMMAND: invalid choice: ${quoted(name)}: there are ${Object.keys(COMMANDS).join(", ")}`);
  const typed = parse(name, command, rest);
  if (typed.help) {
    print(help(name));
    return 0;
  }
  const open = command.takes[command.takes.length - 1]!;
  const due = command.takes.filter((each) => !each.endsWith("..")).length;
  const lacking = command.takes.filter((each) => !each.endsWith("..")).slice(typed.words.length);
  if (lacking.length) throw new BadInput(`${name}: the following arguments are required: ${lacking.join(", ")}`);
  if (!/ (\.\.|\+)$/.test(open) && typed.words.length > due) throw new BadInput(`not understood: ${typed.words.slice(due).join(" ")}`);
  for (const option of command.needs ?? []) if (!typed.options.has(option)) throw new BadInput(`${name}: the following arguments are required: ${option}`);
  const { html, engine } = inPage();
  const ofCards = command.takes[0] === "CARD";
  const path = ofCards ? typed.words[0]! : "";
  // `show` says itself where a card is refused.
  const card = ofCards && name !== "show" ? load(engine, path) : (null as unknown as Card);
  return command.run({
    engine,
    path,
    card,
    html,
    json: typed.options.has("--json"),
    check: typed.options.has("--check"),
    words: ofCards ? typed.words.slice(1) : typed.words,
    file: typed.options.get("-o")?.pop() ?? null,
    rankings: typed.options.get("--ranking") ?? [],
  });
}

/** Runs a command, and answers its status. A complaint is one line on standard error, whatever was typed. */
export async function main(typed: readonly string[]): Promise<number> {
  const complain = (text: string) => sink.err(`desk: ${text.replace(/\n/g, "\\n")}\n`);
  try {
    return await ran(typed);
  } catch (error) {
    if (error instanceof BadInput || error instanceof Refused) {
      complain(error.message);
      return 2;
    }
    if (error instanceof Stopped) {
      complain(error.message);
      return STOPPED;
    }
    throw error;
  }
}
