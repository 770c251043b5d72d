/** The panels of the page, in their order. A panel is a component that asks the desk by `useDesk()`. */
import { FunctionComponent } from "react";
import { Machines } from "./machines";
import { Tableaux } from "./tableaux";
import { TypologyPanel } from "./typology";

export interface Panel {
  /** Its place in the page's address and in tests. */
  readonly id: string;
  readonly title: string;
  readonly Content: FunctionComponent;
}

export const panels: readonly Panel[] = [
  { id: "tableaux", title: "Tableaux", Content: Tableaux },
  { id: "typology", title: "Typology", Content: TypologyPanel },
  { id: "machines", title: "Machines", Content: Machines },
];
