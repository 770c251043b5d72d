/** desk/README.md: its commands run, its JSON is what comes out, its pictures are there. */
import assert from "node:assert/strict";
import { readdirSync, readFileSync, statSync } from "node:fs";
import { join } from "node:path";
import { test } from "node:test";
import { desk, inFolder, ROOT, text } from "./running";

const TEXT = readFileSync(join(ROOT, "desk/README.md"), "utf8");
/** The words of a command as a shell has them. */
const words = (command: string) => [...command.matchAll(/'([^']*)'|(\S+)/g)].map(([, quoted, plain]) => quoted ?? (plain!.startsWith("demo/") ? join(ROOT, plain!) : plain!));

test("every command of the page runs, and every command is on it", () =>
  inFolder(async () => {
    const commands = [...TEXT.matchAll(/^ {4}desk\/desk (.*)$/gm)].map(([, command]) => command!);
    const named = new Set(commands.map((command) => command.split(" ")[0]!));
    const there = [...(await text(["--help"])).matchAll(/^ {2}([a-z]+) /gm)].map(([, name]) => name!);
    assert.deepEqual([...named].sort(), there.sort());
    for (const command of commands) {
      const { status, err } = await desk(...words(command));
      assert.ok(status < 2 && err === "", `${command}: ${err}`);
    }
  }));

test("its JSON is what comes out", async () => {
  const examples = [...TEXT.matchAll(/^ {4}desk\/desk (.* --json)\n {4}(\{.*\})$/gm)];
  assert.equal(examples.length, 2);
  for (const [, command, printed] of examples) assert.equal(await text(words(command!)), `${printed}\n`);
});

test("its pictures are there, and small", () => {
  const named = [...TEXT.matchAll(/!\[[^\]]+\]\((pictures\/\w+\.png)\)/g)].map(([, file]) => file!);
  assert.deepEqual(named.sort(), readdirSync(join(ROOT, "desk/pictures")).map((file) => `pictures/${file}`).sort());
  for (const file of named) assert.ok(statSync(join(ROOT, "desk", file), { throwIfNoEntry: false })!.size < 80000, file);
});
