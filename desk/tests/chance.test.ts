/** The desk on good arguments damaged by chance: an answer, or one line on standard error and status 2; never a trace. */
import assert from "node:assert/strict";
import { join } from "node:path";
import { test } from "node:test";
import { chance, DEMO, desk, inFolder } from "./running";

const TAG = join(DEMO, "tag");
const GOOD = [
  ["show", TAG],
  ["tableau", TAG, "012", "t a g", "t:t a:a g:g 0:."],
  ["typology", TAG, "t a g", "1,2"],
  ["rank", TAG, "t a g=t:t a:a g:g 0:.", "a=a:a 0:."],
  ["judge", TAG, "012", "t a g", "> t:t a:a 0:. g:0 = 0 0 1", "t:t a:a g:g 0:. = 1 0 0"],
  ["rank", join(DEMO, "syllables"), "V C=0:C V:V C:0 0:."],
  ["weigh", TAG, "1,1,1.5", "t a g"],
  ["sets", TAG, "NoCoda DEP PARSE", "t|g a g"],
  ["join", join(DEMO, "syllable_two"), "onset", "3", "-o", "joined.bin", "V V"],
  ["unused", TAG, "--ranking", "012", "t a g", "-o", "trimmed.bin"],
  ["page", TAG, "-o", "page.html", "t a g"],
  ["answers", TAG],
];
const ODD = [
  ..."012 00 x 9 t : :: 0:0 1:1 = > 1:1=1 | , 1,,2 -o --json --ranking -- -x nowhere/x é ² 0123456789 NoCoda=1 >>".split(" "),
  "", " ", "t a q", "1:1 2:2", "> t:t = 0", Array(30).fill("1").join(","), "0:4 ".repeat(40), "1,2,3=", DEMO, "demo\n",
];

test("an answer or one line", () =>
  inFolder(async () => {
    const random = chance(7);
    const seen: Record<number, number> = { 0: 0, 1: 0, 2: 0 };
    for (let turn = 0; turn < 1500; turn++) {
      const given = [...GOOD[random(GOOD.length)]!];
      for (let times = random(3); times; times--) {
        given.splice(random(given.length + 1), random(2), ...(random(2) ? [ODD[random(ODD.length)]!] : []));
      }
      const { status, out, err } = await desk(...given);
      assert.ok(status in seen, given.join(" "));
      assert.equal(err.split("\n").length - 1, status === 2 ? 1 : 0, `${given.join(" ")}: ${err}`);
      assert.ok(status !== 2 || !out, given.join(" "));
      seen[status]++;
    }
    assert.ok(Math.min(...Object.values(seen)) > 5, JSON.stringify(seen));
  }));
