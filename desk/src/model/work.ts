/** The work file: a card with its names, and what a person did with it. JSON, so that other programs can read it. */
import { Candidate, Ranking, Word } from "../engine/results";
import { BadInput } from "./badInput";

const FORMAT = "pastaspur-work";
const VERSION = 1;

export interface Work {
  readonly title: string;
  /** The card as card.txt. */
  readonly card: string;
  readonly words: readonly Word[];
  readonly ranking: Ranking;
  /** Candidates that were added, by the key of their word. */
  readonly typed: Readonly<Record<string, readonly Candidate[]>>;
  /** What the forms of the card hold, where it was made by forms; read by forms/. */
  readonly forms?: unknown;
}

export function workText(work: Work): string {
  return `${JSON.stringify({ format: FORMAT, version: VERSION, ...work }, null, 1)}\n`;
}

const isBytes = (value: unknown): value is number[] => Array.isArray(value) && value.every((each) => Number.isInteger(each) && each >= 0 && each < 64);
const isCandidate = (value: unknown): boolean => Array.isArray(value) && value.every((pair) => isBytes(pair) && pair.length === 2);

export function readWork(text: string): Work {
  let value: Record<string, unknown>;
  try {
    value = JSON.parse(text) as Record<string, unknown>;
  } catch (error) {
    throw new BadInput(`a work file that is not JSON: ${(error as Error).message}`);
  }
  if (value === null || typeof value !== "object" || value["format"] !== FORMAT) throw new BadInput("a file of JSON that is no work file of this page");
  if (value["version"] !== VERSION) throw new BadInput(`a work file of version ${String(value["version"])}; this page reads ${VERSION}`);
  const { title, card, words, ranking, typed } = value;
  const whole =
    typeof title === "string" &&
    typeof card === "string" &&
    Array.isArray(words) &&
    words.every(isBytes) &&
    isBytes(ranking) &&
    typed !== null &&
    typeof typed === "object" &&
    Object.values(typed).every((list) => Array.isArray(list) && list.every(isCandidate));
  if (!whole) throw new BadInput("a work file that lacks its title, card, words, ranking or typed candidates");
  return value as unknown as Work;
}
