/** What the page holds, and how its panels ask and change it. */
import { createContext, useContext } from "react";
import { Progress } from "../analysis/task";
import { Candidate, Ranking, Word } from "../engine/results";
import { Card } from "../model/card";
import { Tableau } from "../analysis/tableau";
import { Answered, Given, Study, TaskName } from "../tasks";

/** Candidates that a person added to a word's tableau, by the word's key (`keyOf`). */
export type Typed = Readonly<Record<string, readonly Candidate[]>>;

export interface Desk {
  readonly card: Card;
  readonly words: readonly Word[];
  readonly ranking: Ranking;
  readonly typed: Typed;
  /** The words' tableaux under the ranking; null until they are there. */
  readonly tableaux: readonly Tableau[] | null;
  /** All rankings asked; null until they are, and where it was stopped. */
  readonly study: Study | null;
  /** Asked by the quick worker, which is never kept busy. */
  ask<N extends TaskName>(name: N, ...given: Given<N>): Promise<Answered<N>>;
  /** Asked by the worker for long questions: its progress is shown with a button that stops it. */
  askLong<N extends TaskName>(name: N, ...given: Given<N>): Promise<Answered<N>>;
  setRanking(ranking: Ranking, said?: string): void;
  setWords(words: readonly Word[]): void;
  setTyped(word: Word, candidates: readonly Candidate[]): void;
  /** Another card; its words are its lines' where none are given. */
  setCard(card: Card, words?: readonly Word[], ranking?: Ranking): void;
  /** Says something to the person: what went wrong, or what was done. */
  say(text: string): void;
}

export interface Running {
  readonly progress: Progress | null;
}

const Context = createContext<Desk | null>(null);
export const DeskProvider = Context.Provider;

export function useDesk(): Desk {
  const desk = useContext(Context);
  if (!desk) throw new Error("no desk around this panel");
  return desk;
}
