/** The worker: runs tasks with an engine of its own, one after the other, and says how far it is. The page stops it by ending it. */
import { Engine } from "../engine/engine";
import { BadInput } from "../model/badInput";
import { Refused } from "../engine/refusals";
import { Task } from "../analysis/task";
import { tasks } from "../tasks";
import { Question, Reply } from "./messages";

/** Milliseconds between two reports. */
const REPORT = 60;

let engine: Engine | null = null;
const reply = (message: Reply) => (self as unknown as Worker).postMessage(message);

self.addEventListener("message", ({ data }: MessageEvent<Question>) => {
  if (data.kind === "engine") {
    engine = Engine.load(data.bytes);
    return;
  }
  try {
    const run = tasks[data.name] as unknown as (...given: unknown[]) => Task<unknown>;
    const task = run(engine, ...data.given);
    let reported = performance.now();
    for (;;) {
      const step = task.next();
      if (step.done) return reply({ kind: "answer", id: data.id, answer: step.value });
      if (performance.now() - reported > REPORT) {
        reported = performance.now();
        reply({ kind: "progress", id: data.id, progress: step.value });
      }
    }
  } catch (error) {
    const known = error instanceof BadInput || error instanceof Refused;
    const message = error instanceof Error ? (known ? error.message : `${error.name}: ${error.message}`) : String(error);
    reply({ kind: "error", id: data.id, message, known });
  }
});
