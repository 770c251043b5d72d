/** The ranking: a chip for each machine, with its name to hold and an arrow to each side. */
import { FormEvent, KeyboardEvent, PointerEvent, useLayoutEffect, useRef, useState } from "react";
import { digits, rankingText, readRanking } from "../model/notation";
import { useDesk } from "./desk";

interface Held {
  readonly machine: number;
  readonly pointer: number;
}

export function RankingBar() {
  const desk = useDesk();
  const { card, ranking } = desk;
  const list = useRef<HTMLOListElement>(null);
  const [held, setHeld] = useState<Held | null>(null);
  // Moving a chip in the document takes the focus from it: it is given back.
  const focused = useRef<string | null>(null);
  useLayoutEffect(() => {
    if (focused.current) list.current?.querySelector<HTMLElement>(focused.current)?.focus();
    focused.current = null;
  }, [ranking]);

  const move = (machine: number, to: number, by: string) => {
    const place = Math.max(0, Math.min(ranking.length - 1, to));
    if (ranking[place] === machine) return;
    const order = ranking.filter((other) => other !== machine);
    order.splice(place, 0, machine);
    focused.current = `[data-machine="${machine}"] ${by}`;
    desk.setRanking(order, `${card.machines[machine]!.name} is now ${place + 1} of ${order.length}.`);
  };

  const key = (event: KeyboardEvent, machine: number) => {
    const place = ranking.indexOf(machine);
    const places: Record<string, number> = { ArrowLeft: place - 1, ArrowUp: place - 1, ArrowRight: place + 1, ArrowDown: place + 1, Home: 0, End: ranking.length - 1 };
    const to = places[event.key];
    if (to === undefined) return;
    event.preventDefault();
    move(machine, to, ".name");
  };

  // The list holds the pointer, and not the chip, which is moved while it is held.
  const hold = (event: PointerEvent, machine: number) => {
    if (event.button !== 0) return;
    list.current?.setPointerCapture(event.pointerId);
    setHeld({ machine, pointer: event.pointerId });
  };

  const follow = (event: PointerEvent) => {
    if (!held || event.pointerId !== held.pointer || !list.current) return;
    const boxes = ranking.map((machine) => list.current!.querySelector(`[data-machine="${machine}"]`)!.getBoundingClientRect());
    const place = ranking.indexOf(held.machine);
    const over = boxes.findIndex((box) => event.clientX >= box.left && event.clientX <= box.right && event.clientY >= box.top - 8 && event.clientY <= box.bottom + 8);
    if (over < 0 || over === place) return;
    // On one line it moves once it would then lie under the pointer: beside a wide neighbour it does not go back and forth.
    const [box, own] = [boxes[over]!, boxes[place]!];
    const sameLine = Math.abs(box.top - own.top) < box.height / 2;
    if (sameLine && over > place && event.clientX < box.right - own.width) return;
    if (sameLine && over < place && event.clientX > box.left + own.width) return;
    move(held.machine, over, ".name");
  };

  const step = (machine: number, place: number, by: number, words: string) => {
    const end = by < 0 ? place === 0 : place === ranking.length - 1;
    return (
      <button
        type="button"
        className="step"
        data-step={words}
        aria-label={`Rank ${card.machines[machine]!.name} ${words}`}
        aria-disabled={end}
        onClick={() => move(machine, place + by, `[data-step="${words}"]`)}
      >
        {by < 0 ? "‹" : "›"}
      </button>
    );
  };

  return (
    <>
      <ol id="ranking" ref={list} onPointerMove={follow} onPointerUp={() => setHeld(null)} onPointerCancel={() => setHeld(null)}>
        {ranking.map((machine, place) => (
          <li key={machine}>
            <span className={held?.machine === machine ? "chip held" : "chip"} data-machine={machine}>
              {step(machine, place, -1, "higher")}
              <button
                type="button"
                className="name"
                aria-describedby="hint"
                aria-label={`${card.machines[machine]!.name}, ${place + 1} of ${ranking.length}`}
                onKeyDown={(event) => key(event, machine)}
                onPointerDown={(event) => hold(event, machine)}
              >
                {card.machines[machine]!.name}
              </button>
              {step(machine, place, 1, "lower")}
            </span>
          </li>
        ))}
      </ol>
      <TypedRanking key={digits(ranking)} />
      <p className="hint" id="hint">
        Drag a constraint, move it with its arrows or the arrow keys, or type the ranking: every tableau is ranked anew.
      </p>
    </>
  );
}

function TypedRanking() {
  const desk = useDesk();
  const [text, setText] = useState(rankingText(desk.card, desk.ranking));
  const set = (event: FormEvent) => {
    event.preventDefault();
    try {
      const ranking = readRanking(desk.card, text);
      if (ranking.length !== desk.card.machines.length || new Set(ranking).size !== ranking.length || ranking.some((machine) => machine >= ranking.length)) {
        desk.say(`A ranking has each of ${desk.card.machines.map(({ name }) => name).join(", ")} once.`);
      } else desk.setRanking(ranking);
    } catch (error) {
      desk.say((error as Error).message);
    }
  };
  return (
    <form className="typed-ranking" onSubmit={set}>
      <input aria-label="The ranking, typed" value={text} onChange={(event) => setText(event.target.value)} />
      <button type="submit">Rank</button>
    </form>
  );
}
