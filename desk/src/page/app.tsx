/** The desk on the page: what it holds, and what is asked when it changes. */
import { ChangeEvent, DragEvent, useCallback, useEffect, useMemo, useRef, useState } from "react";
import { Progress } from "../analysis/task";
import { Candidate, Ranking, Word } from "../engine/results";
import { Card, keyOf, wordsOf } from "../model/card";
import { cardText } from "../model/cardText";
import { digits, formText, wordText } from "../model/notation";
import { workText } from "../model/work";
import { Tableau } from "../analysis/tableau";
import { Answered, Given, Study, TaskName } from "../tasks";
import { Lane, Stopped } from "./client";
import { Desk, DeskProvider, Typed } from "./desk";
import { openFile, Opened, save } from "./files";
import { panels } from "./panels";
import { RankingBar } from "./ranking";

/** A card that the page has inside: as card.txt, or as the bytes of a card without names. */
export interface Example {
  readonly name: string;
  readonly said: string;
  readonly text?: string;
  readonly bytes?: string;
  readonly words?: readonly Word[];
}

interface Held extends Required<Opened> {
  /** The example that it is, or its file's title. */
  readonly source: string;
}

const identity = (card: Card): Ranking => card.machines.map((_, machine) => machine);

/** The ranking at the end of the page's address, where it is one of the card's. */
function linked(card: Card): Ranking | null {
  const ranking = [...decodeURIComponent(location.hash.slice(1))].map(Number);
  const right = ranking.length === card.machines.length && identity(card).every((machine) => ranking.includes(machine));
  return right ? ranking : null;
}

export function App({ examples, quick, long }: { examples: readonly Example[]; quick: Lane; long: Lane }) {
  const [held, setHeld] = useState<Held | null>(null);
  const [tableaux, setTableaux] = useState<readonly Tableau[] | null>(null);
  const [studied, setStudied] = useState<{ card: Card; words: readonly Word[]; study: Study } | null>(null);
  const [progress, setProgress] = useState<Progress | null>(null);
  const [said, setSaid] = useState("");
  const [complaint, setComplaint] = useState("");
  const file = useRef<HTMLInputElement>(null);

  const ask = useCallback(<N extends TaskName>(name: N, ...given: Given<N>): Promise<Answered<N>> => quick.ask(name, given), [quick]);
  const askLong = useCallback(
    async <N extends TaskName>(name: N, ...given: Given<N>): Promise<Answered<N>> => {
      try {
        return await long.ask(name, given, setProgress);
      } finally {
        setProgress(null);
      }
    },
    [long],
  );

  const complain = useCallback((error: unknown) => {
    if (!(error instanceof Stopped)) setComplaint(error instanceof Error ? error.message : String(error));
  }, []);

  const hold = useCallback((source: string, { card, words, ranking, typed }: Opened) => {
    setComplaint("");
    setTableaux(null);
    setStudied(null);
    setHeld({ source, card, words: words ?? wordsOf(card), ranking: ranking ?? linked(card) ?? identity(card), typed: typed ?? {} });
  }, []);

  const openExample = useCallback(
    (example: Example) => {
      const bytes = () => Uint8Array.from(atob(example.bytes!), (sign) => sign.charCodeAt(0));
      const card = example.text === undefined ? ask("openBytes", example.name, bytes()) : ask("openText", example.name, example.text);
      card.then((made) => hold(example.name, { card: made, ...(example.words ? { words: example.words } : {}) }), complain);
    },
    [ask, hold, complain],
  );
  useEffect(() => openExample(examples[0]!), [examples, openExample]);

  const openFiles = (files: FileList | null) => {
    const first = files?.[0];
    if (first) openFile(ask, first).then((opened) => hold(first.name, opened), complain);
  };

  // All rankings, whenever the card or its words are others.
  const { card, words } = held ?? {};
  useEffect(() => {
    if (!card || !words || !words.length) return;
    let current = true;
    // What is still asked of an older card or list is of no use.
    long.stop();
    askLong("study", card, words).then(
      (study) => current && setStudied({ card, words, study }),
      (error) => current && complain(error),
    );
    return () => void (current = false);
  }, [card, words, askLong, complain, long]);

  const study = studied && studied.card === card && studied.words === words ? studied.study : null;

  // The tableaux, whenever something of them is another.
  useEffect(() => {
    if (!held) return;
    let current = true;
    const asked = held.words.map((word, at) => ({ word, contenders: study?.contenders[at] ?? [], typed: held.typed[keyOf(word)] ?? [] }));
    ask("tableaux", held.card, held.ranking, asked).then((rows) => current && setTableaux(rows), (error) => current && complain(error));
    return () => void (current = false);
  }, [held, study, ask, complain]);

  // When the first tableau was there, for whoever measures.
  const first = Boolean(tableaux);
  useEffect(() => void (first && performance.mark("tableau")), [first]);

  useEffect(() => {
    if (held) history.replaceState(null, "", `#${digits(held.ranking)}`);
  }, [held]);

  const desk = useMemo((): Desk | null => {
    if (!held) return null;
    const change = (part: Partial<Held>) => {
      setComplaint("");
      setHeld((now) => now && { ...now, ...part });
    };
    return {
      ...held,
      tableaux,
      study,
      ask,
      askLong,
      setRanking: (ranking, words = "") => {
        change({ ranking });
        setSaid(words);
      },
      setWords: (next) => change({ words: next }),
      setTyped: (word: Word, candidates: readonly Candidate[]) => change({ typed: { ...held.typed, [keyOf(word)]: candidates } as Typed }),
      setCard: (made, next, ranking) => hold(made.title, { card: made, ...(next ? { words: next } : {}), ...(ranking ? { ranking } : {}) }),
      say: setComplaint,
    };
  }, [held, tableaux, study, ask, askLong, hold]);

  if (!held || !desk) return <p role="status">{complaint || "The engine starts."}</p>;
  const best = (tableaux ?? []).filter(({ rows }) => rows.length).slice(0, 3).map(({ word, rows }) => `${wordText(held.card, word)} ${rows.filter(({ winner, tie }) => winner || tie).map(({ candidate }) => formText(held.card, candidate)).join(" ties with ")}`);
  const saveWork = () => save(`${held.card.title}.json`, workText({ title: held.card.title, card: cardText(held.card), words: held.words, ranking: held.ranking, typed: held.typed }), "application/json");
  const drop = (event: DragEvent) => {
    event.preventDefault();
    openFiles(event.dataTransfer.files);
  };
  return (
    <DeskProvider value={desk}>
      <div onDragOver={(event) => event.preventDefault()} onDrop={drop}>
        <header>
          <h1>{held.card.title}</h1>
          <p>Every answer here is the best over all candidates of any length, as a proved engine gives it.</p>
          <p>
            Symbols: <span className="form">{held.card.symbols.slice(1).join("  ")}</span>
          </p>
          <div className="files">
            <select
              aria-label="A card"
              value={examples.some(({ name }) => name === held.source) ? held.source : ""}
              onChange={(event: ChangeEvent<HTMLSelectElement>) => openExample(examples.find(({ name }) => name === event.target.value)!)}
            >
              {!examples.some(({ name }) => name === held.source) && <option value="">{held.source}</option>}
              {examples.map(({ name, said: words }) => (
                <option key={name} value={name}>
                  {words ? `${name}: ${words}` : name}
                </option>
              ))}
            </select>
            <button type="button" onClick={() => file.current?.click()}>
              Open a file
            </button>
            <input ref={file} type="file" className="hidden" tabIndex={-1} aria-label="card.bin, card.txt or a work file" accept=".bin,.txt,.json" onChange={(event) => openFiles(event.target.files)} />
            <button type="button" onClick={saveWork}>
              Save work
            </button>
            <button type="button" onClick={() => save("card.bin", held.card.bytes, "application/octet-stream")}>
              Save card.bin
            </button>
            <button type="button" onClick={() => save("card.txt", cardText(held.card), "text/plain")}>
              Save card.txt
            </button>
          </div>
          {complaint && (
            <p className="complaint" role="alert">
              {complaint}
            </p>
          )}
        </header>
        <section className="bar" aria-labelledby="ranking-title">
          <h2 id="ranking-title">Ranking</h2>
          <RankingBar />
          <p id="said" className="hidden" role="status" aria-live="polite">
            {said && `${said} Best: ${best.join(", ")}.`}
          </p>
          {progress && (
            <p className="progress">
              <progress aria-label="Rankings asked" max={progress.of} value={progress.done} /> {progress.done} of {progress.of} {progress.what}
              {progress.found ? `; ${progress.found}` : ""}{" "}
              <button type="button" id="stop" onClick={() => long.stop()}>
                Stop
              </button>
            </p>
          )}
        </section>
        <main>
          {panels.map(({ id, title, Content }) => (
            <section key={id} id={`panel-${id}`} aria-labelledby={`${id}-title`}>
              <h2 id={`${id}-title`}>{title}</h2>
              <Content />
            </section>
          ))}
        </main>
      </div>
    </DeskProvider>
  );
}
