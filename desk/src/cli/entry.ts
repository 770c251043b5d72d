/** The program: see main.ts. */
import { main } from "./main";

// Who reads has seen enough: what is left to write goes nowhere.
process.stdout.on("error", (error: { code?: string }) => process.exit(error.code === "EPIPE" ? 0 : 1));
main(process.argv.slice(2)).then((status) => void (process.exitCode = status));
