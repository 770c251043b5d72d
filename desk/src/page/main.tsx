/** The page: reads what is embedded in it, starts its two workers, and shows the desk. */
import { createRoot } from "react-dom/client";
import { App, Example } from "./app";
import { Lane } from "./client";

const embedded = (id: string): string => document.getElementById(id)!.textContent!;
const engine = Uint8Array.from(atob(embedded("engine")), (sign) => sign.charCodeAt(0));
const script = URL.createObjectURL(new Blob([JSON.parse(embedded("worker")) as string], { type: "text/javascript" }));
const examples = JSON.parse(embedded("examples")) as Example[];
const root = createRoot(document.getElementById("page")!);
root.render(<App examples={examples} quick={new Lane(script, engine)} long={new Lane(script, engine)} />);
