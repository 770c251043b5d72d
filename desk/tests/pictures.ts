#!/usr/bin/env node
/** Makes the pictures of desk/README.md anew, from the commands that stand there: `desk/build tests; node target/desk/tests/pictures.cjs; pngquant --force --ext .png 48 desk/pictures/*.png`. */
import { mkdtempSync, readFileSync, rmSync, writeFileSync } from "node:fs";
import { tmpdir } from "node:os";
import { join } from "node:path";
import { Browser, wait } from "./browser";
import { desk, PAGE, ROOT } from "./running";

const PAINTS: Record<string, string> = { "1": "font-weight:bold", "31": "color:#a3263b" };
const STYLE = `body { margin: 0; display: inline-block; background: #fdfcf9; } pre { margin: 0; padding: 14px 20px; font: 14px/1.45 'DejaVu Sans Mono', monospace; color: #222; }
.asked { color: #1f4e79; } .hand { display: inline-block; width: 1ch; font: 16px/1 serif; text-indent: -0.3ch; }`;
const escaped = (text: string) => text.replace(/&/g, "&amp;").replace(/</g, "&lt;");
const painted = (text: string) =>
  escaped(text).replace(/\x1b\[(\d+)m(.*?)\x1b\[0m/g, (_, paint: string, words: string) => `<span style="${PAINTS[paint]}">${words}</span>`).replace(/☞/g, "<span class=hand>☞</span>");
const words = (command: string) => [...command.matchAll(/'([^']*)'|(\S+)/g)].map(([, quoted, plain]) => quoted ?? (plain!.startsWith("demo/") ? join(ROOT, plain!) : plain!));

void (async () => {
  const folder = mkdtempSync(join(tmpdir(), "desk-pictures-"));
  const file = (name: string) => join(ROOT, "desk/pictures", `${name}.png`);
  const text = readFileSync(join(ROOT, "desk/README.md"), "utf8");
  process.chdir(folder);
  process.stdout.isTTY = true;
  const browser = await Browser.start();
  const picture = async (name: string, html: string) => {
    writeFileSync("shown.html", `<!DOCTYPE html><meta charset=utf-8><style>${STYLE}</style>${html}`);
    await browser.size({ width: 1600, height: 900 });
    await browser.open(`file://${join(folder, "shown.html")}`, "document.body");
    const [width, height] = await browser.evaluate<[number, number]>("(() => { const box = document.body.getBoundingClientRect(); return [Math.ceil(box.right), Math.ceil(box.bottom)]; })()");
    await browser.size({ width: width!, height: height! });
    await browser.picture(file(name));
  };
  try {
    for (const [, name, lines] of text.matchAll(/^### (\w+)\n\n((?: {4}desk\/desk .*\n)+)/gm)) {
      const shown: string[] = [];
      for (const line of lines!.trim().split("\n").map((each) => each.trim())) {
        shown.push(`<span class=asked>$ ${escaped(line)}</span>\n${painted((await desk(...words(line.replace(/^desk\/desk /, "")))).out)}`);
      }
      if (text.includes(`(pictures/${name}.png)`) && !["page", "draw"].includes(name!)) await picture(name!, `<pre>${shown.join("\n").trimEnd()}</pre>`);
    }
    await picture("draw", `<div style="padding:12px">${readFileSync("0-NoCoda.svg", "utf8").replace(/^<\?.*\n/, "")}</div>`);
    await browser.size({ width: 900, height: 1260 });
    await browser.open(`file://${PAGE}#012`, "document.querySelector('.typology')");
    await wait(300);
    await browser.picture(file("page"));
    await browser.size({ width: 390, height: 1100, mobile: true });
    await desk("page", join(ROOT, "demo/syllables"), "-o", "syllables.html");
    await browser.open(`file://${join(folder, "syllables.html")}#0132`, "document.querySelector('.typology')");
    await wait(300);
    await browser.picture(file("phone"));
  } finally {
    browser.close();
    process.chdir(ROOT);
    rmSync(folder, { recursive: true, force: true });
  }
})();
