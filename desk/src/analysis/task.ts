/** Work that can be watched and stopped: a generator yields how far it is, and returns its answer. */

export interface Progress {
  readonly done: number;
  readonly of: number;
  /** What is counted: `rankings`. */
  readonly what: string;
  /** What is found so far, where there is something to say of it. */
  readonly found?: string;
}

export type Task<T> = Generator<Progress, T, void>;

/** The answer of a task, run to its end without a look at its progress. */
export function finish<T>(task: Task<T>): T {
  for (;;) {
    const step = task.next();
    if (step.done) return step.value;
  }
}
