/**
 * card.txt: a card said in names, one thing to a line. This is its one reader.
 *
 *     symbols NAME ..                    numbered from 1; 0 is the empty symbol
 *     set NAME = NAME ..                 a name for several symbols
 *     machine NAME                       a constraint; then its lines:
 *       states NAME ..                   the first one is the start
 *       final NAME ..                    the states that a candidate may end in; NAME=MARKS for one with ending marks
 *       arc FROM -> TO  IN : OUT  MARKS  IN and OUT are sets, names with commas; no MARKS are 0; after them `same` for an arc
 *                                        that takes only pairs with in equal to out, `different` for one that takes the others
 *     join NAME = MACHINE MACHINE        the two as one machine, in the place of the first that stands in the card
 *     line MACHINE .. / SYMBOL ..        a ranking and a word: a line of stdin
 *     tableau MACHINE .. / SYMBOL ..     a line of stdin, and candidates for it, the best one marked with >:
 *     > IN:OUT .. = COUNT ..  FORM       with its counts in card order, and its form as the paper has it
 *     claim MACHINE .. / SYMBOL ..       a tableau that is sent to be judged and is not right; its rows, the claimed one with >
 *       verdict WORD ..                  and what is said of it: another row N, not in the table, refused N
 *     winners SYMBOL ..                  lines of stdin, the word under every ranking, and the best forms that come out:
 *       FORM MACHINE COUNT ..            the output (- where empty), and the counts that are not 0
 *
 * `#` at the start of a line or behind a space starts a comment. Inside a word it is a letter like others, `*C#`; a word that starts with
 * it is written with a backslash, `\#V`. A mistake is named by its line, with the reason.
 */
import { Engine } from "../engine/engine";
import { ARCS, COUNT, LINES, MACHINES, MARKS, PRODUCT, ROWS, STATES, SYMBOLS, WORD } from "../engine/limits";
import { Refusal, Refused } from "../engine/refusals";
import { Word } from "../engine/results";
import { quoted } from "./badInput";
import { allRankings, Card, cardBytes, Claim, ClaimedRow, EMPTY, Line, NamedSet, setName, tableauBytes, Winners } from "./card";
import { Arc, commonPair, Kind, KINDS, Machine, machineOf, marked, partOf, setOf, State } from "./machine";
import { commas, digits, normalised, split } from "./notation";

/** What is wrong in a card.txt, and at which line. */
export class Mistake extends Error {
  constructor(readonly reason: string, readonly line: number) {
    super(`${line}: ${reason}`);
    this.name = "Mistake";
  }
}

/** What stands between names is in none of them; what stands for something is no name by itself. */
const BETWEEN = /[,:=]/;
const RESERVED = [EMPTY, "-", "/", ">", "->"];

export const KEYS = ["symbols", "set", "machine", "states", "final", "arc", "join", "line", "tableau", "claim", "verdict", "winners"] as const;
type Key = typeof KEYS[number];

interface OpenMachine {
  name: string;
  line: number;
  states?: string[];
  final?: Map<string, number>;
  arcs: { arc: Arc; line: number }[];
}

/** A whole machine, and the line that started it. */
interface Placed {
  readonly machine: Machine;
  readonly line: number;
}

class Reader {
  private readonly symbols: string[] = [EMPTY];
  private readonly sets: NamedSet[] = [];
  private machines: Placed[] = [];
  private open: OpenMachine | null = null;
  private whole = false;
  private readonly lines: Line[] = [];
  private readonly claims: { line: Line; rows: ClaimedRow[]; verdict: string; asked: boolean }[] = [];
  private readonly winners: { word: Word; forms: { form: string; counts: number[] }[] }[] = [];
  /** What reads a line that starts with no key: a row of a tableau, a form of winners, or nothing. */
  private rows: "tableau" | "winners" | null = null;
  private rowsLine = 0;
  private at = 0;

  constructor(private readonly engine: Engine) {}

  read(title: string, text: string): Card {
    const lines = normalised(text).split(/\r\n|[\n\r\u2028\u2029]/);
    if (lines[lines.length - 1] === "") lines.pop();
    for (const line of lines) {
      this.at++;
      const words = split(line.replace(/(^|\s)#.*/u, "")).map((word) => word.replace(/^\\#/, "#"));
      if (words.length) this.readLine(words[0]!, words);
    }
    this.endRows();
    this.endMachines();
    const machines = this.machines.map(({ machine }) => machine);
    const claims: Claim[] = this.claims.map(({ line, ...claim }) => ({ ...line, ...claim }));
    const winners: Winners[] = this.winners;
    const { symbols, sets } = this;
    return { title, symbols, sets, machines, lines: this.lines, claims, winners, named: true, bytes: cardBytes(symbols.length - 1, machines) };
  }

  private expect(condition: unknown, reason: string, line = this.at): asserts condition {
    if (!condition) throw new Mistake(reason, line);
  }

  private readLine(first: string, words: string[]): void {
    const rest = words.slice(1);
    if ((KEYS as readonly string[]).includes(first)) {
      if (first !== "verdict") this.endRows();
      this.readKey(first as Key, rest);
    } else if (this.rows === "tableau") this.readRow(words);
    else if (this.rows === "winners") this.readWinner(words);
    else throw new Mistake(`${quoted(first)} starts no line: ${KEYS.join(" ")}`, this.at);
  }

  private readKey(key: Key, rest: string[]): void {
    switch (key) {
      case "symbols":
        this.expect(this.symbols.length === 1, "a card has one line of symbols");
        this.symbols.push(...this.newNames(rest, "symbol", SYMBOLS));
        return;
      case "set":
        return this.readSet(rest);
      case "machine":
        return this.readMachine(rest);
      case "states": {
        const machine = this.partOfMachine(key);
        this.expect(!machine.states, "a machine has one line of states");
        machine.states = this.newNames(rest, "state", STATES);
        return;
      }
      case "final":
        return this.readFinal(rest);
      case "arc":
        return this.readArc(rest);
      case "join":
        return this.readJoin(rest);
      case "line":
        return this.ask(this.asked(rest, key));
      case "tableau": {
        const line = this.asked(rest, key);
        this.ask(line);
        return this.startTableau(line, true);
      }
      case "claim":
        return this.startTableau(this.asked(rest, key), false);
      case "verdict":
        return this.readVerdict(rest);
      case "winners":
        return this.readWinners(rest);
    }
  }

  // Names

  private number(text: string, what: string, most: number): number {
    this.expect(/^[0-9]{1,9}$/.test(text) && Number(text) <= most, `${what} ${quoted(text)} is no number of 0 to ${most}`);
    return Number(text);
  }

  private known(name: string, names: readonly string[], what: string): number {
    const found = names.indexOf(name);
    this.expect(found >= 0, `no ${what} ${quoted(name)}; there ${names.length > 1 ? "are" : "is"} ${names.join(" ") || "none"}`);
    return found;
  }

  /** Names that are given for the first time. */
  private newNames(names: string[], what: string, most: number): string[] {
    this.expect(names.length, `no ${what} is named`);
    this.expect(names.length <= most, `${names.length} ${what}s, more than ${most}`);
    names.forEach((name, at) => {
      this.expect(!BETWEEN.test(name) && !RESERVED.includes(name), `${quoted(name)} cannot name a ${what}`);
      this.expect(names.indexOf(name) === at, `the ${what} ${quoted(name)} is named twice`);
    });
    return names;
  }

  private symbolsNamed(names: string): number[] {
    return names.split(",").flatMap((name) => {
      const set = this.sets.find((each) => each.name === name);
      if (set) return [...set.symbols];
      const symbol = this.symbols.indexOf(name);
      const all = [...this.symbols, ...this.sets.map((each) => each.name)];
      this.expect(symbol >= 0, `no symbol or set ${quoted(name)}; there are ${all.join(" ")}`);
      return [symbol];
    });
  }

  private machineNames(): string[] {
    return [...this.machines.map(({ machine }) => machine.name), ...(this.open ? [this.open.name] : [])];
  }

  // Sets and machines

  private readSet(rest: string[]): void {
    this.expect(rest.length > 2 && rest[1] === "=", "the form is: set NAME = NAME ..");
    const [name] = this.newNames(rest.slice(0, 1), "set", 1);
    const taken = this.symbols.includes(name!) || this.sets.some((set) => set.name === name);
    this.expect(!taken, `${quoted(name!)} names something else already`);
    this.sets.push({ name: name!, symbols: rest.slice(2).flatMap((part) => this.symbolsNamed(part)) });
  }

  private readMachine(rest: string[]): void {
    this.expect(rest.length === 1, "the form is: machine NAME");
    this.expect(!this.whole, "a machine after the lines that rank the machines");
    this.endMachine();
    const [name] = this.newNames(rest, "machine", 1);
    this.expect(!this.machineNames().includes(name!), `the machine ${quoted(name!)} is named twice`);
    this.open = { name: name!, line: this.at, arcs: [] };
  }

  private partOfMachine(key: string): OpenMachine {
    this.expect(this.open && !this.whole, `${quoted(key)} stands in no machine`);
    return this.open;
  }

  private statesFor(key: string): string[] {
    const { states } = this.partOfMachine(key);
    this.expect(states, `${quoted(key)} before the machine's states`);
    return states;
  }

  private readFinal(rest: string[]): void {
    const states = this.statesFor("final");
    const machine = this.partOfMachine("final");
    this.expect(!machine.final, "a machine has one line of final states");
    const endings = rest.map((word) => /^([^=]*)(=?)(.*)$/u.exec(word)!);
    this.newNames(endings.map(([, name]) => name!), "final state", STATES);
    machine.final = new Map(
      endings.map(([, name, sign, marks]) => {
        this.known(name!, states, "state");
        return [name!, sign ? this.number(marks!, "ending marks", MARKS) : 0];
      }),
    );
  }

  private readArc(rest: string[]): void {
    const states = this.statesFor("arc");
    const form = "the form is: arc FROM -> TO  IN : OUT  MARKS  KIND";
    this.expect(rest.length >= 6 && rest.length <= 8 && rest[1] === "->" && rest[4] === ":", form);
    const [from, , to, inputs, , outputs, ...more] = rest as [string, string, string, string, string, string, ...string[]];
    const kind = (KINDS as readonly string[]).includes(more[more.length - 1] ?? "") ? (more.pop() as Kind) : "any";
    this.expect(more.length < 2, form);
    const marks = more.length ? this.number(more[0]!, "marks", MARKS) : 0;
    const ends = { from: this.known(from, states, "state"), to: this.known(to, states, "state") };
    const arc: Arc = { ...ends, marks, kind, inputs: setOf(this.symbolsNamed(inputs)), outputs: setOf(this.symbolsNamed(outputs)) };
    const { arcs } = this.partOfMachine("arc");
    this.expect(arcs.length < ARCS, `more than ${ARCS} arcs`);
    for (const other of arcs) {
      const pair = other.arc.from === arc.from ? commonPair(arc, other.arc) : null;
      const shown = (pair ?? []).map((symbol) => this.symbols[symbol]).join(":");
      this.expect(pair === null, `the arc at line ${other.line} takes ${shown} from ${from} too`);
    }
    arcs.push({ arc, line: this.at });
  }

  private endMachine(): void {
    if (!this.open) return;
    const { name, line, states, final, arcs } = this.open;
    const lacks = (key: string) => `the machine ${quoted(name)} has no line ${quoted(key)}`;
    this.expect(states, lacks("states"), line);
    this.expect(final, lacks("final"), line);
    const named = states.map((state): State => ({ name: state, ending: final.get(state) ?? null }));
    this.machines.push({ machine: { name, states: named, arcs: arcs.map(({ arc }) => arc) }, line });
    this.open = null;
  }

  /** The machines are whole: what is said of them together. */
  private endMachines(): void {
    if (this.whole) return;
    this.endMachine();
    this.whole = true;
    this.expect(this.symbols.length > 1, "a card has symbols");
    this.expect(this.machines.length, "a card has a machine");
    const last = this.machines[this.machines.length - 1]!.line;
    this.expect(this.machines.length <= MACHINES, `${this.machines.length} machines, more than ${MACHINES}`, last);
    const product = this.machines.reduce((all, { machine }) => all * machine.states.length, 1);
    this.expect(product <= PRODUCT, `the machines' state counts make ${product}, more than ${PRODUCT}`, last);
  }

  /** Two machines as one, by the engine's call. */
  private readJoin(rest: string[]): void {
    this.expect(rest.length === 4 && rest[1] === "=", "the form is: join NAME = MACHINE MACHINE");
    this.expect(!this.whole, "a join after the lines that rank the machines");
    this.endMachine();
    const [name, , first, second] = rest as [string, string, string, string];
    const names = this.machineNames();
    const numbers = [first, second].map((each) => this.known(each, names, "machine"));
    this.expect(first !== second, "a machine is not joined to itself");
    this.newNames([name], "machine", 1);
    this.expect(name === first || name === second || !names.includes(name), `the machine ${quoted(name)} is named twice`);
    const [lower, higher] = [Math.min(...numbers), Math.max(...numbers)];
    const [one, two] = [this.machines[lower]!.machine, this.machines[higher]!.machine];
    const machine = this.joined(name, one, two);
    this.machines[lower] = { machine, line: this.at };
    this.machines.splice(higher, 1);
  }

  private joined(name: string, one: Machine, two: Machine): Machine {
    this.expect(!(marked(one) && marked(two)), `both ${quoted(one.name)} and ${quoted(two.name)} have marks`);
    const states = one.states.flatMap((s) => two.states.map((t) => `${s.name}+${t.name}`));
    this.expect(states.length <= STATES, `the joined machine has ${states.length} states, more than ${STATES}`);
    const both = this.engine.pack(this.symbols.length - 1, [partOf(one), partOf(two)]);
    try {
      const card = this.engine.join(both, 0, 1);
      const { offset, length } = this.engine.readPart(card, 0);
      return machineOf(card.subarray(offset, offset + length), name, states);
    } catch (error) {
      if (error instanceof Refused && error.number === Refusal.JOINED_SIZE) throw new Mistake(`the joined machine has more than ${ARCS} arcs`, this.at);
      throw error;
    }
  }

  // Lines, tableaux and winners

  /** A ranking and a word. */
  private asked(rest: string[], key: string): Line {
    this.endMachines();
    const at = rest.indexOf("/");
    this.expect(at >= 0 && rest.lastIndexOf("/") === at, `the form is: ${key} MACHINE .. / SYMBOL ..`);
    const names = this.machineNames();
    const ranking = rest.slice(0, at).map((name) => this.known(name, names, "machine"));
    const whole = ranking.length === names.length && new Set(ranking).size === names.length;
    this.expect(whole, `a ranking has each machine once: ${names.join(" ")}`);
    return { ranking, word: this.word(rest.slice(at + 1)) };
  }

  private word(names: string[]): Word {
    this.expect(names.length <= WORD, `a word of ${names.length} symbols, more than ${WORD}`);
    this.expect(!names.includes(EMPTY), "the empty symbol is in no word");
    return names.map((name) => this.known(name, this.symbols, "symbol"));
  }

  private ask(...lines: Line[]): void {
    this.lines.push(...lines);
    this.expect(this.lines.length <= LINES, `more than ${LINES} lines of stdin`);
  }

  private startTableau(line: Line, asked: boolean): void {
    this.claims.push({ line, rows: [], verdict: "right", asked });
    this.rows = "tableau";
    this.rowsLine = this.at;
  }

  private readVerdict(rest: string[]): void {
    this.expect(this.rows === "tableau", "a verdict under no claim");
    const verdict = rest.join(" ");
    const said = verdict === "not in the table" || /^(another row|refused) [0-9]+$/.test(verdict);
    this.expect(said, `no verdict: ${quoted(verdict)}; there are: another row N, not in the table, refused N`);
    this.claims[this.claims.length - 1]!.verdict = verdict;
  }

  private readRow(words: string[]): void {
    this.expect(words.includes("="), "the form of a row is: IN:OUT .. = COUNT ..  FORM, with > before the best one");
    const at = words.indexOf("=");
    const claimed = words[0] === ">";
    const candidate = words.slice(claimed ? 1 : 0, at).map((pair) => {
      const sides = pair.split(":");
      this.expect(sides.length === 2, `${quoted(pair)} is no pair IN:OUT`);
      const [input, output] = sides.map((symbol) => this.known(symbol, this.symbols, "symbol"));
      this.expect(input || output, "0:0 is no pair");
      return [input!, output!] as const;
    });
    const { line, rows } = this.claims[this.claims.length - 1]!;
    const shown = (symbols: Word) => symbols.map((symbol) => this.symbols[symbol]).join(" ");
    const spells = candidate.map(([input]) => input).filter((symbol) => symbol);
    this.expect(commas(spells) === commas(line.word), `the row spells /${shown(spells)}/, the word is /${shown(line.word)}/`);
    const counts = words.slice(at + 1, at + 1 + this.machines.length);
    this.expect(counts.length === this.machines.length, `a row has ${this.machines.length} counts`);
    rows.push({ claimed, candidate, counts: counts.map((count) => this.number(count, "the count", COUNT)) });
    this.expect(rows.length <= ROWS, `more than ${ROWS} rows`);
    this.expect(rows.filter((row) => row.claimed).length < 2, "a second row with >");
  }

  private endRows(): void {
    if (this.rows === "tableau") {
      const { rows } = this.claims[this.claims.length - 1]!;
      this.expect(rows.some(({ claimed }) => claimed), "no row of the tableau is marked with >", this.rowsLine);
    }
    this.rows = null;
  }

  private readWinners(rest: string[]): void {
    this.endMachines();
    const word = this.word(rest);
    this.ask(...allRankings(this.machines.length).map((ranking) => ({ ranking, word })));
    this.winners.push({ word, forms: [] });
    this.rows = "winners";
  }

  private readWinner([form, ...rest]: string[]): void {
    this.expect(rest.length % 2 === 0, "the form of a winner is: FORM MACHINE COUNT ..");
    const names = this.machineNames();
    const counts = names.map(() => 0);
    for (let at = 0; at < rest.length; at += 2) {
      counts[this.known(rest[at]!, names, "machine")] = this.number(rest[at + 1]!, "the count", COUNT);
    }
    this.winners[this.winners.length - 1]!.forms.push({ form: form === "-" ? "" : form!, counts });
  }
}

/** The card that a card.txt says. A mistake is thrown as Mistake. */
export function readCardText(engine: Engine, title: string, text: string): Card {
  return new Reader(engine).read(title, text);
}

/** The files that are made from a card.txt: each one's name and bytes. */
export function filesOf(card: Card): Map<string, Uint8Array> {
  const encode = (text: string) => new TextEncoder().encode(text);
  const line = ({ ranking, word }: Line) => `${digits(ranking)} ${commas(word)}`;
  const files = new Map([
    ["card.bin", card.bytes],
    ["stdin", encode(card.lines.map((each) => `${line(each)}\n`).join(""))],
  ]);
  card.claims.forEach((claim, at) => files.set(`tableaux/${at + 1}.bin`, tableauBytes(claim.rows)));
  const verdicts = card.claims.map((claim, at) => `${at + 1}.bin ${line(claim)} ${claim.verdict}\n`).join("");
  if (verdicts) files.set("tableaux/verdicts", encode(verdicts));
  return files;
}

/** A card as card.txt. Reading it gives the card again, its tableaux and lines, too; the lines of tableaux stand after the others. */
export function cardText(card: Card): string {
  const symbol = (number: number) => card.symbols[number]!;
  const set = (bits: bigint) => setName(card, bits);
  const ranking = (line: Line) => line.ranking.map((machine) => card.machines[machine]!.name).join(" ");
  const asked = (key: string, line: Line) => `${key} ${ranking(line)} / ${line.word.map(symbol).join(" ")}`.trimEnd();
  const parts = [`symbols ${card.symbols.slice(1).join(" ")}`];
  if (card.sets.length) parts.push(card.sets.map(({ name, symbols }) => `set ${name} = ${symbols.map(symbol).join(" ")}`).join("\n"));
  for (const machine of card.machines) {
    const state = (number: number) => machine.states[number]!.name;
    const finals = machine.states.filter(({ ending }) => ending !== null).map(({ name, ending }) => (ending ? `${name}=${ending}` : name));
    parts.push(
      [
        `machine ${machine.name}`,
        `  states ${machine.states.map(({ name }) => name).join(" ")}`,
        `  final ${finals.join(" ")}`,
        ...machine.arcs.map(({ from, to, inputs, outputs, marks, kind }) => {
          const more = [marks ? String(marks) : "", kind === "any" ? "" : kind].filter((each) => each).map((each) => `  ${each}`);
          return `  arc ${state(from)} -> ${state(to)}  ${set(inputs)} : ${set(outputs)}${more.join("")}`;
        }),
      ].join("\n"),
    );
  }
  const own = linesToSay(card);
  if (own.length) parts.push(own.map((line) => asked("line", line)).join("\n"));
  for (const claim of card.claims) {
    const rows = claim.rows.map(({ claimed, candidate, counts }) => {
      const pairs = candidate.map(([input, output]) => `${symbol(input)}:${symbol(output)}`);
      return [claimed ? ">" : " ", ...pairs, "=", ...counts].join(" ");
    });
    const verdict = claim.verdict === "right" ? [] : [`  verdict ${claim.verdict}`];
    parts.push([asked(claim.asked ? "tableau" : "claim", claim), ...rows, ...verdict].join("\n"));
  }
  for (const { word, forms } of card.winners) {
    const rows = forms.map(({ form, counts }) => {
      const marks = counts.flatMap((count, machine) => (count ? [card.machines[machine]!.name, String(count)] : []));
      return `  ${[form || "-", ...marks].join(" ")}`;
    });
    parts.push([`winners ${word.map(symbol).join(" ")}`, ...rows].join("\n"));
  }
  // A word that starts with # is no comment.
  return `${parts.join("\n\n")}\n`.replace(/(?<=^|\s)#/gu, "\\#");
}

/** The lines that no tableau and no winners say. */
function linesToSay(card: Card): Line[] {
  const said = new Map<string, number>();
  const key = (line: Line) => `${digits(line.ranking)} ${commas(line.word)}`;
  const say = (line: Line) => said.set(key(line), (said.get(key(line)) ?? 0) + 1);
  card.claims.filter(({ asked }) => asked).forEach(say);
  for (const { word } of card.winners) allRankings(card.machines.length).forEach((ranking) => say({ ranking, word }));
  return card.lines.filter((line) => {
    const left = said.get(key(line)) ?? 0;
    if (left) said.set(key(line), left - 1);
    return !left;
  });
}
