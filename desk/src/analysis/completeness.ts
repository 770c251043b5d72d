/** Where a candidate stops: which machine takes which pair no further. Read off the card; that it stops the engine says. */
import { Candidate } from "../engine/results";
import { Card } from "../model/card";
import { takes } from "../model/machine";

/** The first machine that does not take a candidate to a final state, its state, and the pair. */
export function stoppedAt(card: Card, candidate: Candidate): string {
  for (const machine of card.machines) {
    let state = 0;
    for (const [at, [input, output]] of candidate.entries()) {
      const arc = machine.arcs.find((each) => each.from === state && takes(each, input, output));
      const pair = `${card.symbols[input]}:${card.symbols[output]}`;
      if (!arc) return `${machine.name} has no arc for pair ${at + 1}, ${pair}, in its state ${machine.states[state]!.name}`;
      state = arc.to;
    }
    if (machine.states[state]!.ending === null) return `${machine.name} ends in its state ${machine.states[state]!.name}, which is not final`;
  }
  return "every machine takes it";
}
