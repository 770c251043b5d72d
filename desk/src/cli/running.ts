/** Runs a task on the command line: a bar on a terminal, and Ctrl-C ends it with a word on how far it came. */
import { Progress, Task } from "../analysis/task";

export class Stopped extends Error {
  constructor(progress: Progress | null) {
    super(progress ? `stopped after ${progress.done} of ${progress.of} ${progress.what}${progress.found ? `; ${progress.found} in these` : ""}` : "stopped");
    this.name = "Stopped";
  }
}

const WIDTH = 40;
/** Milliseconds between two looks at the keyboard. */
const LOOK = 50;

export async function run<T>(task: Task<T>): Promise<T> {
  let stop = false;
  let shown = "";
  const listener = () => void (stop = true);
  process.on("SIGINT", listener);
  try {
    let looked = Date.now();
    for (;;) {
      const step = task.next();
      if (step.done) return step.value;
      if (Date.now() - looked < LOOK) continue;
      shown = bar(step.value, shown);
      await new Promise<void>((resolve) => void setImmediate(resolve));
      if (stop) throw new Stopped(step.value);
      looked = Date.now();
    }
  } finally {
    process.removeListener("SIGINT", listener);
    if (shown) process.stderr.write("\r\x1b[K");
  }
}

function bar({ done, of, what }: Progress, shown: string): string {
  if (!process.stderr.isTTY || !of) return shown;
  const filled = Math.floor((WIDTH * done) / of);
  const text = `\r[${"#".repeat(filled)}${".".repeat(WIDTH - filled)}] ${done} of ${of} ${what}`;
  if (text !== shown) process.stderr.write(text);
  return text;
}
