/** Files in and out: card.bin, card.txt, and the work file. */
import { Ranking, Word } from "../engine/results";
import { BadInput } from "../model/badInput";
import { Card } from "../model/card";
import { readWork, Work } from "../model/work";
import { Answered, Given, TaskName } from "../tasks";
import { Typed } from "./desk";

export interface Opened {
  readonly card: Card;
  readonly words?: readonly Word[];
  readonly ranking?: Ranking;
  readonly typed?: Typed;
}

export type Ask = <N extends TaskName>(name: N, ...given: Given<N>) => Promise<Answered<N>>;

/** The card of a file, by what is in it. */
export async function openFile(ask: Ask, file: { name: string; arrayBuffer(): Promise<ArrayBuffer> }): Promise<Opened> {
  const bytes = new Uint8Array(await file.arrayBuffer());
  const title = file.name.replace(/\.(bin|txt|json)$/i, "") || file.name;
  let text: string;
  try {
    text = new TextDecoder("utf-8", { fatal: true }).decode(bytes);
  } catch {
    return { card: await ask("openBytes", title, bytes) };
  }
  if (/\.json$/i.test(file.name) || text.trimStart().startsWith("{")) return openWork(ask, readWork(text));
  // A card's first byte is its machine count, which no text starts with.
  if (bytes.length && bytes[0]! < 9) return { card: await ask("openBytes", title, bytes) };
  return { card: await ask("openText", title, text) };
}

async function openWork(ask: Ask, work: Work): Promise<Opened> {
  const card = await ask("openText", work.title, work.card);
  const fits = work.ranking.length === card.machines.length && [...work.ranking].sort().every((machine, at) => machine === at);
  if (!fits) throw new BadInput(`${work.title}: its ranking is none of its card's machines`);
  return { card, words: work.words, ranking: work.ranking, typed: work.typed };
}

/** Hands a file to the person. */
export function save(name: string, contents: BlobPart, type: string): void {
  const link = document.createElement("a");
  link.href = URL.createObjectURL(new Blob([contents], { type }));
  link.download = name;
  link.click();
  setTimeout(() => URL.revokeObjectURL(link.href), 1000);
}
