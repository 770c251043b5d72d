/** The words' tableaux under the ranking. */
import { FormEvent, useState } from "react";
import { MOST_STARS, Row, Tableau } from "../analysis/tableau";
import { tiesLeftOut } from "../analysis/ties";
import { Word } from "../engine/results";
import { keyOf, same } from "../model/card";
import { formText, pairsText, readGiven, readWord, wordText } from "../model/notation";
import { useDesk } from "./desk";

export function Tableaux() {
  const desk = useDesk();
  const shown = desk.tableaux ?? [];
  return (
    <>
      <div id="tableaux">
        {shown.map((each) => (
          <WordTableau key={keyOf(each.word)} tableau={each} />
        ))}
        {desk.words.length === 0 && <p>This card has no words of its own: type one.</p>}
      </div>
      <AddWord />
      <p className="legend">
        <span className="hand">☞</span> the best form, and each form that ties with it; <span className="form">*</span> a mark; <b className="fatal">!</b> the mark that decides against a form;
        what lies behind it is shaded. The rows are every form that some ranking makes the best, and those that were listed or typed.
      </p>
    </>
  );
}

function Marks({ count, fatal, least }: { count: number; fatal: boolean; least: number }) {
  const words = `${count || "no"} mark${count === 1 ? "" : "s"}${fatal ? ", which decides" : ""}`;
  const sign = fatal ? <b className="fatal">!</b> : null;
  const stars = (number: number) => "*".repeat(number);
  return (
    <>
      <span aria-hidden="true">
        {count > MOST_STARS ? count : stars(fatal ? least + 1 : count)}
        {sign}
        {fatal && count <= MOST_STARS ? stars(count - least - 1) : ""}
      </span>
      <span className="hidden">{words}</span>
    </>
  );
}

function TableauRow({ row, best }: { row: Row; best: Row }) {
  const { card, ranking } = useDesk();
  const decidedAt = row.decided === null ? ranking.length : ranking.indexOf(row.decided);
  return (
    <tr className={row.winner ? "best" : row.tie ? "tie" : undefined}>
      <th className="row" scope="row">
        {(row.winner || row.tie) && (
          <span className="hand" role="img" aria-label={row.winner ? "best: " : "ties with the best: "}>
            ☞
          </span>
        )}
        <bdi>{formText(card, row.candidate)}</bdi>
      </th>
      {ranking.map((machine, at) => (
        <td key={machine} className={at > decidedAt ? "shaded" : undefined}>
          <Marks count={row.counts[machine]!} fatal={at === decidedAt} least={best.counts[machine]!} />
        </td>
      ))}
      <td className="pairs">
        <bdi>{pairsText(card, row.candidate)}</bdi>
        {row.tie ? (
          <b>
            {" "}
            ties with <bdi>{formText(card, best.candidate)}</bdi>
          </b>
        ) : (
          row.decided === null && !row.winner && " (ties with the best)"
        )}
      </td>
    </tr>
  );
}

function WordTableau({ tableau: { word, rows, ties } }: { tableau: Tableau }) {
  const { card, ranking } = useDesk();
  const shown = wordText(card, word);
  if (!rows.length) {
    return (
      <section className="word-tableau">
        <p>
          <bdi>{shown}</bdi>: no candidate is complete, so no ranking gives this word a form. <RemoveWord word={word} />
        </p>
      </section>
    );
  }
  return (
    <section className="word-tableau">
      <div className="scroll" tabIndex={0} role="group" aria-label={`Tableau of ${shown}`}>
        <table className="tableau" aria-label={`Tableau of ${shown}`}>
          <thead>
            <tr>
              <th className="word" scope="col">
                <bdi>{shown}</bdi>
              </th>
              {ranking.map((machine) => (
                <th key={machine} scope="col">
                  {card.machines[machine]!.name}
                </th>
              ))}
            </tr>
          </thead>
          <tbody>
            {rows.map((row) => (
              <TableauRow key={keyOf(row.candidate)} row={row} best={rows[0]!} />
            ))}
          </tbody>
        </table>
      </div>
      {tiesLeftOut(ties) && <p className="left-out">Not all ties are listed: {tiesLeftOut(ties)}.</p>}
      <AddCandidate word={word} example={pairsText(card, rows[0]!.candidate)} />
    </section>
  );
}

/** Another candidate for a word, as pairs or by its form: then its best alignment under the ranking. */
function AddCandidate({ word, example }: { word: Word; example: string }) {
  const desk = useDesk();
  const [text, setText] = useState("");
  const shown = wordText(desk.card, word);
  const add = async (event: FormEvent) => {
    event.preventDefault();
    try {
      const given = readGiven(desk.card, word, text);
      const { candidate } =
        "pairs" in given ? (await desk.ask("evaluate", desk.card, word, [given.pairs]))[0]! : await desk.ask("align", desk.card, desk.ranking, word, given.form);
      desk.setTyped(word, [...(desk.typed[keyOf(word)] ?? []), candidate]);
      setText("");
    } catch (error) {
      desk.say((error as Error).message);
    }
  };
  return (
    <form className="add" onSubmit={(event) => void add(event)}>
      <input aria-label={`Another candidate for ${shown}`} placeholder={`another: ${example}`} value={text} onChange={(event) => setText(event.target.value)} />
      <button type="submit">Add</button> <RemoveWord word={word} />
    </form>
  );
}

function RemoveWord({ word }: { word: Word }) {
  const desk = useDesk();
  return (
    <button type="button" aria-label={`Leave ${wordText(desk.card, word)} out`} onClick={() => desk.setWords(desk.words.filter((other) => !same(other, word)))}>
      Leave out
    </button>
  );
}

function AddWord() {
  const desk = useDesk();
  const [text, setText] = useState("");
  const add = (event: FormEvent) => {
    event.preventDefault();
    try {
      const word = readWord(desk.card, text);
      if (!desk.words.some((other) => same(other, word))) desk.setWords([...desk.words, word]);
      setText("");
    } catch (error) {
      desk.say((error as Error).message);
    }
  };
  return (
    <form className="add" onSubmit={add}>
      <input aria-label="Another word" placeholder={`another word: ${desk.card.symbols.slice(1, 4).join(" ")}`} value={text} onChange={(event) => setText(event.target.value)} />
      <button type="submit">Add word</button>
    </form>
  );
}
