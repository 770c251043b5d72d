/** The machines drawn. */
import { useEffect, useState } from "react";
import { machineSvg } from "../drawing/machine";
import { counted } from "../model/badInput";
import { Card } from "../model/card";
import { useDesk } from "./desk";

export function Machines() {
  const { card, tableaux } = useDesk();
  const [drawn, setDrawn] = useState<{ card: Card; pictures: readonly string[] } | null>(null);
  // Drawn behind the tableaux, which are looked at first.
  const ready = tableaux !== null;
  useEffect(() => {
    if (!ready) return;
    const later = setTimeout(() => setDrawn({ card, pictures: card.machines.map((machine) => machineSvg(card, machine)) }), 0);
    return () => clearTimeout(later);
  }, [card, ready]);
  const pictures = drawn?.card === card ? drawn.pictures : [];
  return (
    <div className="machines">
      {card.machines.map((machine, number) => (
        <figure key={number}>
          <div className="scroll" tabIndex={0} role="group" aria-label={`${machine.name} drawn`} dangerouslySetInnerHTML={{ __html: pictures[number] ?? "" }} />
          <figcaption>
            <b>{machine.name === String(number) ? `machine ${number}` : machine.name}</b> {counted(machine.states.length, "state")}, {counted(machine.arcs.length, "arc")}
          </figcaption>
        </figure>
      ))}
      <p className="legend">An arrow's sets are what goes in and what comes out, 0 for nothing; a double circle is a state that a form may end in; marks are red.</p>
    </div>
  );
}
