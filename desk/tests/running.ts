/** Running the desk as a person does, in a folder of its own. */
import assert from "node:assert/strict";
import { existsSync, mkdtempSync, readdirSync, readFileSync, rmSync } from "node:fs";
import { tmpdir } from "node:os";
import { join } from "node:path";
import { main } from "../src/cli/main";
import { sink } from "../src/cli/output";
import { load as loadCard } from "../src/cli/cards";
import { Engine } from "../src/engine/engine";
import { Card } from "../src/model/card";

/** The tests are run from the repository's root. */
export const ROOT = process.cwd();
export const DEMO = join(ROOT, "demo");
export const PAGE = process.env["PASTASPUR_PAGE"] ?? join(ROOT, "dist", "pastaspur.html");
export const CARDS = readdirSync(DEMO).filter((name) => existsSync(join(DEMO, name, "card.txt"))).map((name) => join(DEMO, name));
process.env["PASTASPUR_PAGE"] = PAGE;

export const engine = Engine.load(new Uint8Array(Buffer.from(/id="engine">([^<]*)</.exec(readFileSync(PAGE, "utf8"))![1]!, "base64")));
export const load = (folder: string): Card => loadCard(engine, folder);

export interface Said {
  readonly status: number;
  readonly out: string;
  readonly err: string;
}

export async function desk(...given: string[]): Promise<Said> {
  let [out, err] = ["", ""];
  const before = { ...sink };
  sink.out = (text) => void (out += text);
  sink.err = (text) => void (err += text);
  try {
    return { status: await main(given), out, err };
  } finally {
    Object.assign(sink, before);
  }
}

/** What a command says that ends well, or with another status. */
export async function text(given: string[], status = 0): Promise<string> {
  const said = await desk(...given);
  assert.deepEqual([said.status, said.err], [status, ""], given.join(" "));
  return said.out;
}

export async function json<T = Record<string, unknown>>(given: string[], status = 0): Promise<T> {
  return JSON.parse(await text([...given, "--json"], status)) as T;
}

/** Bad input: one line on standard error that says something, status 2, nothing on standard output. */
export async function bad(given: string[], says: string): Promise<void> {
  const { status, out, err } = await desk(...given);
  assert.deepEqual([status, out, err.split("\n").length], [2, "", 2], `${given.join(" ")}: ${err}`);
  assert.ok(err.includes(says), `${err} does not say ${says}`);
}

/** Runs a test in an empty folder, which is the current one for it. */
export async function inFolder(body: (folder: string) => Promise<void> | void): Promise<void> {
  const folder = mkdtempSync(join(tmpdir(), "desk-test-"));
  process.chdir(folder);
  try {
    await body(folder);
  } finally {
    process.chdir(ROOT);
    rmSync(folder, { recursive: true, force: true });
  }
}

/** Numbers by chance, the same in every run. */
export function chance(seed: number): (below: number) => number {
  let state = seed >>> 0;
  return (below) => {
    // mulberry32
    state = (state + 0x6d2b79f5) >>> 0;
    let mixed = Math.imul(state ^ (state >>> 15), state | 1);
    mixed ^= mixed + Math.imul(mixed ^ (mixed >>> 7), mixed | 61);
    return Math.floor((((mixed ^ (mixed >>> 14)) >>> 0) / 4294967296) * below);
  };
}
