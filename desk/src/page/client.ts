/** Asks tasks of a worker. A lane is one worker: what is asked of it runs in turn, and `stop` ends it and starts another. */
import { Progress } from "../analysis/task";
import { BadInput } from "../model/badInput";
import { Answered, Given, TaskName } from "../tasks";
import { Question, Reply } from "./messages";

/** What was asked when the lane was stopped ends with it. */
export class Stopped extends Error {
  constructor() {
    super("stopped");
    this.name = "Stopped";
  }
}

interface Waiting {
  readonly resolve: (answer: never) => void;
  readonly reject: (error: Error) => void;
  readonly progress: (progress: Progress) => void;
}

export class Lane {
  /** Started at the first question. */
  private worker: Worker | null = null;
  private readonly waiting = new Map<number, Waiting>();
  private next = 0;

  constructor(private readonly script: string, private readonly engine: Uint8Array) {}

  private start(): Worker {
    const worker = new Worker(this.script);
    worker.addEventListener("message", ({ data }: MessageEvent<Reply>) => this.hear(data));
    worker.addEventListener("error", (event) => this.stop(new Error(event.message)));
    this.post(worker, { kind: "engine", bytes: this.engine });
    return worker;
  }

  private post(worker: Worker, question: Question): void {
    worker.postMessage(question);
  }

  private hear(reply: Reply): void {
    const waiting = this.waiting.get(reply.id);
    if (!waiting) return;
    if (reply.kind === "progress") return waiting.progress(reply.progress);
    this.waiting.delete(reply.id);
    if (reply.kind === "answer") waiting.resolve(reply.answer as never);
    else waiting.reject(reply.known ? new BadInput(reply.message) : new Error(reply.message));
  }

  ask<N extends TaskName>(name: N, given: Given<N>, progress: (progress: Progress) => void = () => undefined): Promise<Answered<N>> {
    const id = this.next++;
    return new Promise((resolve, reject) => {
      this.waiting.set(id, { resolve, reject, progress });
      this.worker ??= this.start();
      this.post(this.worker, { kind: "task", id, name, given });
    });
  }

  /** Ends what runs and what waits. A worker that nothing is asked of is kept. */
  stop(reason: Error = new Stopped()): void {
    const ended = [...this.waiting.values()];
    if (!ended.length) return;
    this.worker?.terminate();
    this.worker = null;
    this.waiting.clear();
    for (const { reject } of ended) reject(reason);
  }
}
