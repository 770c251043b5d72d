/** All rankings of six machines in time, and a typology that is stopped. */
import assert from "node:assert/strict";
import { spawn } from "node:child_process";
import { writeFileSync } from "node:fs";
import { join } from "node:path";
import { test } from "node:test";
import { cardBytes } from "../src/model/card";
import { setOf } from "../src/model/machine";
import { wait } from "./browser";
import { DEMO, inFolder, json, load, ROOT } from "./running";

/** The five machines of syllables_five, and hiatus: a mark for each vowel straight after a vowel. */
export function sixMachines(): Uint8Array {
  const card = load(join(DEMO, "syllables_five"));
  const arc = (from: number, to: number, marks: number, outputs: number[]) => ({ from, to, marks, kind: "any" as const, inputs: setOf([0, 1, 2]), outputs: setOf(outputs) });
  const arcs = [arc(0, 0, 0, [0]), arc(0, 0, 0, [1, 3]), arc(0, 1, 0, [2]), arc(1, 1, 0, [0]), arc(1, 0, 0, [1, 3]), arc(1, 1, 1, [2])];
  const states = [{ name: "0", ending: 0 }, { name: "1", ending: 0 }];
  return cardBytes(card.symbols.length - 1, [...card.machines, { name: "hiatus", states, arcs }]);
}

const word = (number: number, length: number) => [...number.toString(2).padStart(length, "0")].map((bit) => (bit === "1" ? "1" : "2")).join(",");

test("720 rankings of 24 words in ten seconds", () =>
  inFolder(async (folder) => {
    writeFileSync("card.bin", sixMachines());
    const words = Array.from({ length: 24 }, (_, at) => word(at, 2 + (at % 9)));
    const began = Date.now();
    const { languages } = await json<{ languages: { rankings: number }[] }>(["typology", folder, ...words]);
    assert.ok(Date.now() - began < 10000);
    assert.equal(languages.reduce((sum, { rankings }) => sum + rankings, 0), 720);
  }));

test("Ctrl-C stops a typology, which says how far it came", () =>
  inFolder(async (folder) => {
    writeFileSync("card.bin", sixMachines());
    const words = Array.from({ length: 300 }, (_, at) => word(1000 + 977 * at, 24));
    const child = spawn("node", [join(ROOT, "target/desk/desk.js"), "typology", folder, ...words]);
    let [out, err] = ["", ""];
    child.stdout.on("data", (data: { toString(): string }) => void (out += data.toString()));
    child.stderr.on("data", (data: { toString(): string }) => void (err += data.toString()));
    const ended = new Promise<number | null>((resolve) => child.on("close", (status: number | null) => resolve(status)));
    await wait(1500);
    child.kill("SIGINT");
    assert.equal(await ended, 130, err);
    assert.equal(out, "");
    assert.match(err, /^desk: stopped after \d+ of 720 rankings; \d+ languages? in these\n$/);
  }));
