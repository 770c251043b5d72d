/** Every call of the WebAssembly on all cases of tests/calls and of the corpus, and the live tableau's three by themselves. */
import assert from "node:assert/strict";
import { spawnSync } from "node:child_process";
import { readFileSync, writeFileSync } from "node:fs";
import { join } from "node:path";
import { test } from "node:test";
import { Refused } from "../src/engine/refusals";
import { LiveRow } from "../src/engine/results";
import { chance, engine, inFolder, PAGE, ROOT } from "./running";

const CORPUS = join(ROOT, "target/desk/tests/corpus.cjs");

test("all cases of tests/calls", () =>
  inFolder((folder) => {
    // run.py starts a program by its name alone.
    const program = join(folder, "program");
    writeFileSync(program, `#!/bin/sh\nexec node ${CORPUS}\n`, { mode: 0o755 });
    const ran = spawnSync("python3", ["-B", join(ROOT, "tests/calls/run.py"), program], { encoding: "utf8", env: { ...process.env, PASTASPUR_PAGE: PAGE } });
    assert.equal(ran.status, 0, ran.stdout.slice(-3000) + ran.stderr);
    const cases = [...ran.stdout.matchAll(/: (\d+) cases/g)].reduce((sum, [, count]) => sum + Number(count), 0);
    assert.ok(cases > 2000, `${cases} cases`);
  }));

test("the corpus of crate test_corpus", () => {
  const ran = spawnSync("node", [CORPUS], { encoding: "utf8", cwd: join(ROOT, "crates/test_corpus/data"), env: { ...process.env, PASTASPUR_PAGE: PAGE } });
  assert.equal(ran.stderr, "");
  assert.equal(ran.stdout, readFileSync(join(ROOT, "crates/test_corpus/stdout"), "utf8"));
});

test("every refusal of the header is named, every call is there", () => {
  const header = readFileSync(join(ROOT, "include/pastaspur.h"), "utf8");
  for (const [, name, number] of header.matchAll(/PASTASPUR_REFUSED_(\w+) = (\d+)/g)) {
    if (number !== "22") assert.equal(new Refused(Number(number)).refusal, name!.toLowerCase().replace(/_/g, " "));
  }
  const calls = [...header.matchAll(/^uint32_t pastaspur_(\w+)\(/gm)].map(([, name]) => name!.replace(/_(\w)/g, (_, letter: string) => letter.toUpperCase()));
  assert.equal(calls.length, 16);
  for (const call of calls) assert.equal(typeof (engine as unknown as Record<string, unknown>)[call], "function", call);
});

const refused = (number: number, call: () => unknown) => assert.throws(call, { number });

test("a live tableau: the leader changes with the rows", () => {
  const ranking = [0, 2, 1];
  assert.equal(engine.leader(3, ranking, []), null);
  let rows = engine.addRow(3, ranking, [], { id: 7, counts: [0, 0, 1] });
  rows = engine.addRow(3, ranking, rows, { id: 8, counts: [0, 1, 0] });
  assert.deepEqual(engine.leader(3, ranking, rows), { id: 8, counts: [0, 1, 0, 0, 0, 0] });
  rows = engine.removeRow(3, ranking, rows, 8);
  assert.deepEqual(engine.leader(3, ranking, rows), { id: 7, counts: [0, 0, 1, 0, 0, 0] });
});

test("a live tableau: the earliest of equals leads, unused counts are kept", () => {
  let rows = engine.addRow(1, [0], [], { id: 1, counts: [3, 9] });
  rows = engine.addRow(1, [0], rows, { id: 2, counts: [3, 0] });
  assert.deepEqual(engine.leader(1, [0], rows), { id: 1, counts: [3, 9, 0, 0, 0, 0] });
});

test("a live tableau: refusals 1, 7, 23 and 24", () => {
  refused(24, () => engine.removeRow(2, [1, 0], [], 5));
  const rows = engine.addRow(2, [1, 0], [], { id: 5, counts: [1, 1] });
  refused(24, () => engine.addRow(2, [1, 0], rows, { id: 5, counts: [0, 0] }));
  refused(24, () => engine.removeRow(2, [1, 0], rows, 6));
  refused(7, () => engine.leader(2, [1, 1], []));
  refused(1, () => engine.leader(7, [0, 1, 2, 3, 4, 5], []));
  const full = Array.from({ length: 32 }, (_, id) => ({ id, counts: [id, 0, 0, 0, 0, 0] }));
  refused(23, () => engine.addRow(1, [0], full, { id: 99, counts: [0] }));
  refused(23, () => engine.addRow(1, [0], rows, { id: 9, counts: [0] }, 1));
  refused(23, () => engine.leader(1, [0], full, 31));
  refused(23, () => engine.removeRow(1, [0], full, 1, 31));
  refused(23, () => engine.addRow(1, [0], [], { id: 1, counts: [0] }, 0));
});

test("a live tableau: many rows added and withdrawn, against rows kept by hand", () => {
  const random = chance(9);
  const ranking = [2, 0, 1];
  let rows: LiveRow[] = [];
  const own = new Map<number, number[]>();
  for (let turn = 0; turn < 2000; turn++) {
    const id = random(40);
    const adds = random(10) < 6;
    const counts = [random(3), random(3), random(3), 0, 0, 0];
    if (adds && own.size === 32) refused(23, () => engine.addRow(3, ranking, rows, { id, counts }));
    else if (adds === own.has(id)) refused(24, () => (adds ? engine.addRow(3, ranking, rows, { id, counts }) : engine.removeRow(3, ranking, rows, id)));
    else if (adds) {
      own.set(id, counts);
      rows = engine.addRow(3, ranking, rows, { id, counts });
    } else {
      own.delete(id);
      rows = engine.removeRow(3, ranking, rows, id);
    }
    assert.deepEqual(rows, [...own].map(([each, its]) => ({ id: each, counts: its })));
    const key = ([, its]: [number, number[]]) => ranking.map((machine) => its[machine]!).join("");
    const best = [...own].reduce<[number, number[]] | null>((least, row) => (least && key(least) <= key(row) ? least : row), null);
    assert.deepEqual(engine.leader(3, ranking, rows), best && { id: best[0], counts: best[1] });
  }
});

test("a part may end past 65,535", () => {
  const card = new Uint8Array(6 + 65535);
  card.set([1, 2, 6, 0, 255, 255]);
  refused(3, () => engine.readPart(card, 0));
});
