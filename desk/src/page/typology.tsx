/** The typology: a row for each language, whose button sets its smallest ranking. */
import { waysText } from "../analysis/conditions";
import { Language } from "../analysis/typology";
import { counted } from "../model/badInput";
import { essential, keyOf, rankedMachines, same } from "../model/card";
import { formText, rankingText, wordText } from "../model/notation";
import { useDesk } from "./desk";

export function TypologyPanel() {
  const desk = useDesk();
  const { card, study, ranking } = desk;
  if (!study) return <p id="count">The rankings are not all asked.</p>;
  const { words, languages } = study.typology;
  const of = languages.reduce((sum, language) => sum + language.rankings.length, 0);
  const chosen = languages.findIndex(({ rankings }) => rankings.some((each) => same(each, essential(card, ranking))));
  const ranked = rankedMachines(card);
  const idle = card.machines.filter((_, machine) => !ranked.includes(machine)).map(({ name }) => name);
  return (
    <>
      <p id="count">
        {counted(languages.length, "language")} from {counted(of, "ranking")}; this ranking makes language {chosen + 1}.
        {idle.length > 0 && ` Without marks, and in no ranking: ${idle.join(", ")}.`}
      </p>
      <div id="typology" className="scroll" tabIndex={0} role="group" aria-label="Typology">
        <table className="typology" aria-label="Typology">
          <thead>
            <tr>
              <th scope="col">language</th>
              {words.map((word) => (
                <th key={keyOf(word)} scope="col" className="word">
                  <bdi>{wordText(card, word)}</bdi>
                </th>
              ))}
              <th scope="col">rankings</th>
              <th scope="col">exactly when</th>
            </tr>
          </thead>
          <tbody>
            {languages.map((language, at) => (
              <LanguageRow key={at} language={language} number={at + 1} chosen={at === chosen} />
            ))}
          </tbody>
        </table>
      </div>
    </>
  );
}

function LanguageRow({ language: { answers, rankings, ways }, number, chosen }: { language: Language; number: number; chosen: boolean }) {
  const { card, setRanking } = useDesk();
  const smallest = rankings[0]!;
  const when = waysText(card, ways, "≫") || "always";
  return (
    <tr className={chosen ? "chosen" : undefined}>
      <td className="choose">
        <button type="button" aria-pressed={chosen} aria-label={`Language ${number}: rank ${rankingText(card, smallest, "≫")}`} onClick={() => setRanking(smallest)}>
          {number}
        </button>
      </td>
      {answers.map((answer, word) => (
        <td key={word} className="row">
          <bdi>{answer ? formText(card, answer.candidate) : "none"}</bdi>
        </td>
      ))}
      <td className="number">{rankings.length}</td>
      <td className="when">{when}</td>
    </tr>
  );
}
