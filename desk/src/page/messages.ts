/** What the page and its workers say to each other. */
import { Progress } from "../analysis/task";
import { TaskName } from "../tasks";

export type Question =
  | { readonly kind: "engine"; readonly bytes: Uint8Array }
  | { readonly kind: "task"; readonly id: number; readonly name: TaskName; readonly given: readonly unknown[] };

export type Reply =
  | { readonly kind: "answer"; readonly id: number; readonly answer: unknown }
  | { readonly kind: "progress"; readonly id: number; readonly progress: Progress }
  | { readonly kind: "error"; readonly id: number; readonly message: string; readonly known: boolean };
