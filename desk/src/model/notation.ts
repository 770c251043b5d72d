/** How rankings, words and candidates are written: as the board takes and prints them, or in names. */
import { Best, Candidate, Ranking, SymbolSet, Word } from "../engine/results";
import { BadInput, quoted } from "./badInput";
import { Card, countsOf, formOf } from "./card";
import { setOf } from "./machine";

export const NOTHING = "∅";

/** A text as people type it, brought to one form: no byte order mark, letters composed. */
export function normalised(text: string): string {
  return text.replace(/^\uFEFF/, "").normalize("NFC");
}

/** A number of 0 to `most`. */
export function numberOf(text: string, most: number, what: string): number {
  if (!/^[0-9]{1,10}$/.test(text) || Number(text) > most) throw new BadInput(`${what}: ${quoted(text)} is no number of 0 to ${most}`);
  return Number(text);
}

export function split(text: string): string[] {
  return text.split(/\s+/u).filter((word) => word);
}

// What the board takes and prints.

export function digits(ranking: Ranking): string {
  return ranking.join("");
}

export function commas(word: Word): string {
  return word.join(",");
}

export function colons(candidate: Candidate): string {
  return candidate.map(([input, output]) => `${input}:${output}`).join(" ");
}

/** An answer as the board prints it; null is a word without a candidate. */
export function answerLine(card: Card, best: Best | null): string {
  return best === null ? "refused 10" : `${countsOf(card, best.counts).join(",")} ${colons(best.candidate)}`.trimEnd();
}

// In names.

export function rankingText(card: Card, ranking: Ranking, sign = ">>"): string {
  return ranking.map((machine) => card.machines[machine]!.name).join(` ${sign} `);
}

/** One letter with its marks, or several under tie bars (t͡s); no number. */
const LETTER = /^[^\p{Nd}]\p{M}*(?:(?<=[\u0361\u035C])[^\p{Nd}]\p{M}*)*$/u;

/** Whether the card's symbols are written close together: each is one letter. */
export function close(card: Card): boolean {
  return card.symbols.slice(1).every((name) => LETTER.test(name));
}

/** Symbols as a form. */
export function spelled(card: Card, symbols: Word): string {
  return symbols.map((symbol) => card.symbols[symbol]).join(close(card) ? "" : " ") || NOTHING;
}

export function wordText(card: Card, word: Word): string {
  return `/${spelled(card, word)}/`;
}

/** What a candidate is pronounced as. */
export function formText(card: Card, candidate: Candidate): string {
  return spelled(card, formOf(candidate));
}

export function pairsText(card: Card, candidate: Candidate): string {
  return candidate.map(([input, output]) => `${card.symbols[input]}:${card.symbols[output]}`).join(" ");
}

// Read.

export function machineNames(card: Card): string[] {
  return card.machines.map(({ name }) => name);
}

/** A ranking in digits or in names, with spaces, >>, ≫, > or commas between them; whether it is one the engine says. */
export function readRanking(card: Card, text: string): Ranking {
  const names = machineNames(card);
  const apart = (word: string, sign: RegExp) => (names.includes(word) ? [word] : word.split(sign).filter((part) => part));
  // A name may hold >: it is taken apart last.
  const words = split(normalised(text)).flatMap((word) => apart(word, />>|≫|»|,/u)).flatMap((word) => apart(word, />/u));
  if (words.length && words.every((word) => names.includes(word))) return words.map((word) => names.indexOf(word));
  if (words.length && words.every((word) => /^[0-9]+$/.test(word))) return [...words.join("")].map(Number);
  const unknown = words.find((word) => !names.includes(word)) ?? "";
  throw new BadInput(`ranking ${quoted(text)}: no machine ${quoted(unknown)}; there are ${names.join(" ")}`);
}

/** Whether a text is a symbol's name or number. */
function isSymbol(card: Card, text: string): boolean {
  return card.symbols.includes(text) || (/^[0-9]{1,3}$/.test(text) && Number(text) < card.symbols.length);
}

export function readSymbol(card: Card, text: string, what: string): number {
  if (isSymbol(card, text)) return card.symbols.includes(text) ? card.symbols.indexOf(text) : Number(text);
  throw new BadInput(`${what}: no symbol ${quoted(text)}; there are ${card.symbols.slice(1).join(" ")}`);
}

/** The places of a word: names with spaces, or with commas as the board takes them. */
function places(card: Card, text: string): string[] {
  const words = split(normalised(text));
  return words.length === 1 && !card.symbols.includes(words[0]!) ? words[0]!.split(",") : words;
}

/** A word: symbols with spaces or commas, or written close (`tag`) where that has one reading; /tag/ and /∅/, too, as they are shown. */
export function readWord(card: Card, text: string): Word {
  return readSymbols(card, text, "word");
}

function readSymbols(card: Card, text: string, noun: string): Word {
  const what = `${noun} ${quoted(text)}`;
  const bare = normalised(text).trim().replace(/^\/(.+)\/$/su, "$1");
  if (bare === NOTHING && !card.symbols.includes(NOTHING)) return [];
  const word = places(card, bare).flatMap((name) => closeSymbols(card, name, what));
  if (word.includes(0)) throw new BadInput(`${what}: the empty symbol is in no word`);
  return word;
}

/** A symbol's name or number, or the names of several written close. */
function closeSymbols(card: Card, text: string, what: string): Word {
  const found = card.named && !isSymbol(card, text) ? readings(card, text) : [];
  if (!found.length || !text) return [readSymbol(card, text, what)];
  if (found.length === 1) return found[0]!;
  const [one, two] = found.map((reading) => quoted(reading.map((symbol) => card.symbols[symbol]).join(" ")));
  throw new BadInput(`${what}: ${quoted(text)} can be read as ${one} and as ${two}: write it with spaces`);
}

/** The words that names written close may be: the first two of them. */
export function readings(card: Card, text: string): Word[] {
  /** Of the rest from each place. */
  const rest: Word[][] = Array.from({ length: text.length + 1 }, () => []);
  rest[text.length] = [[]];
  for (let at = text.length - 1; at >= 0; at--) {
    for (let symbol = 1; symbol < card.symbols.length; symbol++) {
      const name = card.symbols[symbol]!;
      if (!text.startsWith(name, at)) continue;
      for (const word of rest[at + name.length]!) if (rest[at]!.length < 2) rest[at]!.push([symbol, ...word]);
    }
  }
  return rest[0]!;
}

/** Sets of symbols: each place's symbols with | between them. */
export function readSets(card: Card, text: string): SymbolSet[] {
  return places(card, text).map((place) => setOf(place.split("|").map((name) => readSymbol(card, name, `sets ${quoted(text)}`))));
}

export function readCandidate(card: Card, text: string): Candidate {
  const what = `candidate ${quoted(text)}`;
  return split(normalised(text)).map((pair) => {
    const sides = pair.split(":");
    if (sides.length !== 2) throw new BadInput(`${what}: pairs are written IN:OUT, with spaces between them`);
    return [readSymbol(card, sides[0]!, what), readSymbol(card, sides[1]!, what)] as const;
  });
}

/** A candidate as a person gives it: its pairs, or what it is pronounced as, which is still to be aligned. */
export type Given = { readonly pairs: Candidate } | { readonly form: Word };

/** Pairs, or a form, `ta` or `tag -> ta`. A form has no colon; an empty text is no pairs. */
export function readGiven(card: Card, word: Word, text: string): Given {
  if (text.includes(":") || !text.trim()) return { pairs: readCandidate(card, text) };
  const sign = card.symbols.some((name) => name.includes("→")) ? /->/ : /->|→/;
  const parts = normalised(text).split(sign);
  if (parts.length > 2) throw new BadInput(`candidate ${quoted(text)}: a form is written FORM or WORD -> FORM`);
  const before = parts.length === 2 ? readWord(card, parts[0]!) : word;
  if (commas(before) !== commas(word)) throw new BadInput(`candidate ${quoted(text)} is one of ${wordText(card, before)}, the word is ${wordText(card, word)}`);
  return { form: readSymbols(card, parts[parts.length - 1]!, "form") };
}

export function readMachine(card: Card, text: string): number {
  const names = machineNames(card);
  const found = names.indexOf(normalised(text));
  return found >= 0 ? found : numberOf(text, names.length - 1, `machine, of ${names.join(" ")}`);
}
