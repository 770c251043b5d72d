/** The page in a real Chromium: what it shows, by keys, by pointer, by a finger; on a phone; in time; without errors. */
import assert from "node:assert/strict";
import { mkdtempSync, readFileSync, rmSync, statSync, writeFileSync } from "node:fs";
import { tmpdir } from "node:os";
import { basename, join } from "node:path";
import { after, before, describe, test } from "node:test";
import { marks, tableauOf } from "../src/analysis/tableau";
import { finish } from "../src/analysis/task";
import { allRankings, cardBytes, listedFor, wordsOf } from "../src/model/card";
import { setOf } from "../src/model/machine";
import { formText, pairsText } from "../src/model/notation";
import { Browser, wait } from "./browser";
import { CARDS, DEMO, engine, load, PAGE, text } from "./running";
import { YOKUTS } from "./yokuts";

const ADDRESS = `file://${PAGE}`;
const WINNER = "document.querySelector('tr.best th.row bdi').textContent";
const COLUMNS = "[...document.querySelectorAll('.word-tableau:first-child thead th')].slice(1).map((cell) => cell.textContent).join(' ')";
const CELLS = `[...document.querySelectorAll('.word-tableau:first-child tbody tr')].map((row) =>
  [...row.querySelectorAll('td:not(.pairs)')].map((cell) => cell.firstChild.textContent + (cell.className === 'shaded' ? '#' : '')).join(' '))`;
const STUDIED = "document.querySelector('.typology')";
const DESKTOP = { width: 1000, height: 900 };

describe("the page", () => {
  let browser: Browser;
  let folder: string;

  before(async () => {
    folder = mkdtempSync(join(tmpdir(), "desk-page-"));
    browser = await Browser.start();
  });
  after(() => {
    browser.close();
    rmSync(folder, { recursive: true, force: true });
  });

  const open = async (address = ADDRESS, ready = STUDIED) => {
    await browser.size(DESKTOP);
    await browser.open(address, ready);
  };
  const own = async (card: string, ...more: string[]) => {
    const file = join(folder, `${basename(card)}.html`);
    await text(["page", card, ...more, "-o", file]);
    return `file://${file}`;
  };
  const holds = (expression: string, value: unknown) => browser.until(`JSON.stringify(${expression}) === ${JSON.stringify(JSON.stringify(value))}`).catch(async (error) => {
    assert.deepEqual(await browser.evaluate(expression), value);
    throw error;
  });
  const clean = () => assert.deepEqual(browser.errors, []);

  test("shows its first tableau within a second of opening, asks no network", async () => {
    // The quickest of some: other programs may be running.
    const times: number[] = [];
    for (let turn = 0; turn < 12 && !times.some((time) => time < 1000); turn++) {
      await browser.size(DESKTOP);
      browser.requests.length = 0;
      await browser.open(ADDRESS);
      times.push(await browser.evaluate<number>("performance.getEntriesByName('tableau')[0].startTime"));
      assert.ok(browser.requests.every((address) => /^(file:|blob:|about:|data:)/.test(address)), browser.requests.join(" "));
    }
    assert.ok(Math.min(...times) < 1000, times.join(" "));
    assert.ok(statSync(PAGE, { throwIfNoEntry: false })!.size < 700 * 1024);
    clean();
  });

  test("keys rank anew", async () => {
    await open(`${ADDRESS}#012`);
    await holds(`[${WINNER}, ${COLUMNS}]`, ["ta.", "NoCoda DEP PARSE"]);
    await holds(CELLS, ["  *", " *! #", "*! # #", "  **!", "*! **# #"]);
    await browser.evaluate("document.querySelector('.chip[data-machine=\"2\"] .name').focus()");
    await browser.key("ArrowLeft");
    await holds(`[${WINNER}, ${COLUMNS}]`, ["ta.ge.", "NoCoda PARSE DEP"]);
    await holds("document.activeElement.textContent", "PARSE");
    await browser.until("document.getElementById('said').textContent.includes('PARSE is now 2 of 3. Best: /tag/ ta.ge.')");
    await browser.key("Home");
    await browser.until(`${COLUMNS} === 'PARSE NoCoda DEP'`);
    await browser.evaluate("document.querySelector('.chip[data-machine=\"0\"] .name').focus()");
    await browser.key("End");
    await holds(`[${WINNER}, ${COLUMNS}]`, ["tag.", "PARSE DEP NoCoda"]);
    await holds("location.hash", "#210");
    await holds("document.querySelector('tr.chosen button').textContent", "3");
    clean();
  });

  test("by the keyboard alone: every control is reached, a language is chosen, a ranking is typed", async () => {
    await open(`${ADDRESS}#012`);
    const reached = new Set<string>();
    for (let turn = 0; turn < 60; turn++) {
      await browser.key("Tab");
      reached.add(await browser.evaluate<string>("document.activeElement.getAttribute('aria-label') || document.activeElement.textContent"));
    }
    const controls = await browser.evaluate<string[]>("[...document.querySelectorAll('button, select, input:not([type=file])')].map((each) => each.getAttribute('aria-label') || each.textContent)");
    for (const control of controls) assert.ok(reached.has(control), `${control} is not reached by Tab`);
    await browser.evaluate("document.querySelectorAll('.typology button')[2].focus()");
    await browser.key("Enter");
    await holds(`[${WINNER}, ${COLUMNS}]`, ["tag.", "DEP PARSE NoCoda"]);
    await browser.evaluate("(() => { const field = document.querySelector('.typed-ranking input'); field.focus(); field.select(); })()");
    await browser.type("NoCoda >> PARSE >> DEP");
    await browser.key("Enter");
    await holds(`[${WINNER}, ${COLUMNS}]`, ["ta.ge.", "NoCoda PARSE DEP"]);
    clean();
  });

  test("arrows and languages", async () => {
    await open(`${ADDRESS}#012`);
    await browser.click('.chip[data-machine="1"] [data-step=lower]');
    await holds(COLUMNS, "NoCoda PARSE DEP");
    await browser.click('.chip[data-machine="0"] [data-step=higher]');
    await holds(COLUMNS, "NoCoda PARSE DEP");
    await browser.evaluate("document.querySelectorAll('.typology button')[2].click()");
    await holds(`[${WINNER}, ${COLUMNS}]`, ["tag.", "DEP PARSE NoCoda"]);
    await holds("[...document.querySelectorAll('.typology button')].map((button) => button.getAttribute('aria-pressed')).join(' ')", "false false true");
    await browser.until("document.getElementById('count').textContent.includes('this ranking makes language 3')");
  });

  for (const [how, size] of [["a mouse", DESKTOP], ["a finger", { width: 390, height: 780, mobile: true }]] as const) {
    test(`dragged by ${how}`, async () => {
      await open(`${ADDRESS}#012`);
      await browser.size(size);
      const box = (machine: number) => browser.evaluate<{ x: number; y: number; width: number; height: number; right: number }>(`document.querySelector('.chip[data-machine="${machine}"]').getBoundingClientRect().toJSON()`);
      const [from, to] = [await box(0), await box(2)];
      const start = { x: from.x + from.width / 2, y: from.y + from.height / 2 };
      const end = { x: to.right - 4, y: to.y + to.height / 2 };
      const touch = (type: string, points: object[]) => browser.send("Input.dispatchTouchEvent", { type, touchPoints: points });
      const steps = Array.from({ length: 12 }, (_, at) => ({ x: start.x + ((end.x - start.x) * (at + 1)) / 12, y: start.y + ((end.y - start.y) * (at + 1)) / 12 }));
      if ("mobile" in size) {
        await touch("touchStart", [start]);
        for (const step of steps) await touch("touchMove", [step]).then(() => wait(30));
        await touch("touchEnd", []);
      } else {
        await browser.pointer("mousePressed", start.x, start.y);
        for (const { x, y } of steps) await browser.pointer("mouseMoved", x, y).then(() => wait(30));
        await browser.pointer("mouseReleased", end.x, end.y);
      }
      await holds(`[${WINNER}, ${COLUMNS}]`, ["tag.", "DEP PARSE NoCoda"]);
      await holds("document.querySelectorAll('.held').length", 0);
      clean();
    });
  }

  test("a ranking in the address; one that is none is passed over", async () => {
    await open(`${ADDRESS}#021`);
    await holds(WINNER, "ta.ge.");
    await open(`${ADDRESS}#022`);
    await holds(WINNER, "ta.");
  });

  test("every ranking of the syllable card shows the engine's answer: hand, marks, shading", async () => {
    await open(await own(join(DEMO, "syllables")));
    const card = load(join(DEMO, "syllables"));
    const word = wordsOf(card)[0]!;
    for (const ranking of allRankings(card.machines.length)) {
      await browser.evaluate(`(() => { const field = document.querySelector('.typed-ranking input'); Object.getOwnPropertyDescriptor(HTMLInputElement.prototype, 'value').set.call(field, '${ranking.join("")}'); field.dispatchEvent(new Event('input', {bubbles: true})); })()`);
      await browser.evaluate("document.querySelector('.typed-ranking').requestSubmit()");
      await browser.until(`location.hash === '#${ranking.join("")}' && ${COLUMNS} === '${ranking.map((machine) => card.machines[machine]!.name).join(" ")}'`);
      const made = finish(tableauOf(engine, card, ranking, word, listedFor(card, word)));
      const expected = Object.fromEntries(
        made.rows.map((row) => {
          let out = false;
          const cells = ranking.map((machine) => {
            const fatal = row.decided === machine;
            const shown = marks(row.counts[machine]!, fatal, made.rows[0]!.counts[machine]!) + (out ? "#" : "");
            out = out || fatal;
            return shown;
          });
          return [pairsText(card, row.candidate), cells.join(" ")];
        }),
      );
      const found = `Object.fromEntries([...document.querySelectorAll('.word-tableau:first-child td.pairs bdi')].map((cell, at) => [cell.textContent, (${CELLS})[at]]))`;
      await browser.until(`(() => { const found = ${found}; const due = ${JSON.stringify(expected)}; return Object.keys(found).length === Object.keys(due).length && Object.keys(due).every((key) => found[key] === due[key]); })()`).catch(async (error) => {
        assert.deepEqual(await browser.evaluate(found), expected);
        throw error;
      });
      await holds(WINNER, formText(card, made.rows[0]!.candidate));
    }
    clean();
  });

  test("words and candidates are added and left out; what is wrong is said", async () => {
    await open(`${ADDRESS}#012`);
    const add = async (label: string, typed: string) => {
      // What was refused is still in the field.
      await browser.evaluate(`(() => { const field = document.querySelector('[aria-label="${label}"]'); field.focus(); field.select(); })()`);
      await browser.type(typed);
      await browser.key("Enter");
    };
    await add("Another candidate for /tag/", "t:t a:a g:0 0:.");
    await browser.until("document.body.textContent.includes('t:t a:a g:0 0:. (ties with the best)')");
    await add("Another candidate for /tag/", "t:t a:a");
    await browser.until("document.querySelector('[role=alert]')?.textContent.includes('NoCoda ends in its state nucleus')");
    await add("Another candidate for /tag/", "tag -> e.");
    await browser.until("[...document.querySelectorAll('td.pairs bdi')].some((each) => each.textContent === '0:e 0:. t:0 a:0 g:0')");
    await add("Another candidate for /tag/", "tage.");
    await browser.until("document.querySelector('[role=alert]')?.textContent.includes('form tage.: the machines take no candidate for /tag/')");
    await add("Another word", "ga");
    await browser.until("document.querySelectorAll('.word-tableau').length === 2 && document.querySelector('.typology')");
    await browser.evaluate("document.querySelector('[aria-label=\"Leave /tag/ out\"]').click()");
    await browser.until("document.querySelectorAll('.word-tableau').length === 1");
    clean();
  });

  test("every form that ties has a hand, and says with what", async () => {
    writeFileSync(join(folder, "yokuts.txt"), YOKUTS);
    await open(`${await own(join(folder, "yokuts.txt"))}#021`);
    await holds("[...document.querySelectorAll('tr.best bdi, tr.tie bdi')].map((each) => each.textContent)", ["VCiCCV", "V:V C:C 0:i C:C C:C V:V", "VCCiCV", "V:V C:C C:C 0:i C:C V:V", "VCiCCV"]);
    await holds("[...document.querySelectorAll('tbody .hand')].map((each) => each.getAttribute('aria-label'))", ["best: ", "ties with the best: "]);
    await holds("document.querySelector('tr.tie .pairs b').textContent", " ties with VCiCCV");
    await holds("document.querySelector('.left-out')", null);
    writeFileSync(join(folder, "loop.txt"), "symbols a b\nmachine m\n  states one\n  final one\n  arc one -> one  a : a\n  arc one -> one  0 : b\nline m / a\n");
    await open(await own(join(folder, "loop.txt")));
    await browser.until("document.querySelector('.left-out')?.textContent.includes('endlessly many')");
    clean();
  });

  test("every card of the menu, and files: card.bin, card.txt, a work file, a damaged card", async () => {
    await open();
    const names = await browser.evaluate<string[]>("[...document.querySelectorAll('.files select option')].map((option) => option.value)");
    assert.ok(names.length > 5);
    for (const name of names) {
      await browser.evaluate(`(() => { const menu = document.querySelector('.files select'); menu.value = '${name}'; menu.dispatchEvent(new Event('change', {bubbles: true})); })()`);
      await browser.until(`document.querySelector('h1').textContent === '${name}' && document.querySelector('.typology') && document.querySelector('svg')`);
    }
    const input = ".files input[type=file]";
    await browser.files(input, [join(DEMO, "devoicing", "card.txt")]);
    await browser.until("document.querySelector('h1').textContent === 'card' && document.body.textContent.includes('NoVoice')");
    await browser.files(input, [join(DEMO, "tag", "card.bin")]);
    await browser.until("document.body.textContent.includes('This card has no words of its own')");
    const work = { format: "pastaspur-work", version: 1, title: "mine", card: readFileSync(join(DEMO, "tag", "card.txt"), "utf8"), words: [[1, 2]], ranking: [2, 1, 0], typed: {} };
    writeFileSync(join(folder, "work.json"), JSON.stringify(work));
    await browser.files(input, [join(folder, "work.json")]);
    await browser.until("document.querySelector('h1').textContent === 'mine' && location.hash === '#210' && document.querySelector('.word-tableau')");
    writeFileSync(join(folder, "wrong.bin"), Uint8Array.from([7, 1]));
    await browser.files(input, [join(folder, "wrong.bin")]);
    await browser.until("document.querySelector('[role=alert]')?.textContent.includes('byte 0, the machine count, is 7')");
    clean();
  });

  test("odd names are shown as they are, whatever they would mean in HTML", async () => {
    const card = ['symbols <b> & "', "machine </script>", "  states <i> \\N", "  final <i>", '  arc <i> -> \\N  <b>,& : "', "  arc \\N -> <i>  <b> : &  1", "line </script> / <b> <b>", 'line </script> / "'];
    writeFileSync(join(folder, "card.txt"), `${card.join("\n")}\n`);
    await open(await own(join(folder, "card.txt")));
    await holds(COLUMNS, "</script>");
    await holds(WINNER, '" &');
    await browser.until("document.querySelector('svg')");
    const drawn = await browser.evaluate<string>("[...document.querySelectorAll('svg text')].map((each) => each.textContent).join('|')");
    for (const name of ["<i>", "\\N", '<b>,& : "']) assert.ok(drawn.replace(/\u00a0/g, " ").includes(name), drawn);
    clean();
  });

  test("a word without candidate; a card without names; the empty word", async () => {
    await open(await own(join(DEMO, "alqalamu")));
    await browser.until("document.body.textContent.includes('no candidate is complete')");
    writeFileSync(join(folder, "plain.bin"), readFileSync(join(DEMO, "card_b", "card.bin")));
    await open(await own(join(folder, "plain.bin"), "2", ""));
    await browser.until("document.body.textContent.includes('machine 0')");
    await holds("[...document.querySelectorAll('thead th.word')].map((cell) => cell.textContent).slice(0, 2)", ["/2/", "/∅/"]);
    clean();
  });

  test("on a phone nothing is wider than the screen, and nothing is cut off", async () => {
    for (const folderOf of CARDS) {
      const address = await own(folderOf);
      for (const width of [390, 320]) {
        await browser.size({ width, height: 740, mobile: true });
        await browser.open(address, STUDIED);
        const wide = await browser.evaluate<string[]>(`(() => {
          const inFrame = (each) => each.closest('.scroll');
          return [...document.body.querySelectorAll('*')].filter((each) => !inFrame(each) && !each.closest('.hidden') && each.getBoundingClientRect().right > ${width} + 0.5).map((each) => each.outerHTML.slice(0, 80));
        })()`);
        assert.deepEqual(wide, [], `${basename(folderOf)} at ${width}`);
        assert.ok((await browser.evaluate<number>("document.documentElement.scrollWidth")) <= width);
      }
    }
    clean();
  });

  test("print: without what cannot be used on paper", async () => {
    await open();
    await browser.send("Emulation.setEmulatedMedia", { media: "print" });
    await holds("[getComputedStyle(document.querySelector('.step')).display, getComputedStyle(document.querySelector('.bar')).position]", ["none", "static"]);
    await browser.send("Emulation.setEmulatedMedia", { media: "" });
  });

  /** The five machines of syllables_five, and hiatus: a mark for each vowel straight after a vowel. */
  const six = () => {
    const card = load(join(DEMO, "syllables_five"));
    const [any, rest, vowel, none] = [setOf([0, 1, 2]), setOf([1, 3]), setOf([2]), setOf([0])];
    const arc = (from: number, to: number, count: number, outputs: bigint) => ({ from, to, marks: count, kind: "any" as const, inputs: any, outputs });
    const arcs = [arc(0, 0, 0, none), arc(0, 0, 0, rest), arc(0, 1, 0, vowel), arc(1, 1, 0, none), arc(1, 0, 0, rest), arc(1, 1, 1, vowel)];
    const states = [{ name: "0", ending: 0 }, { name: "1", ending: 0 }];
    return cardBytes(card.symbols.length - 1, [...card.machines, { name: "hiatus", states, arcs }]);
  };
  /** Words of two to ten segments, all different. */
  const words = (count: number) => Array.from({ length: 1 << 11 }, (_, at) => (at + 4).toString(2).slice(1)).filter((bits) => bits.length > 2).slice(0, count).map((bits) => [...bits].map((bit) => (bit === "1" ? "1" : "2")).join(","));

  test("100 words by 720 rankings within 5 seconds, and the page answers all the while", async () => {
    const file = join(folder, "six.bin");
    writeFileSync(file, six());
    const asked = words(100);
    assert.equal(new Set(asked).size, 100);
    const address = await own(file, ...asked);
    const [times, busy]: [number[], number[]] = [[], []];
    for (let turn = 0; turn < 5 && !times.some((time) => time < 5000); turn++) {
      await browser.size(DESKTOP);
      await browser.open(address, "document.querySelector('.tableau')");
      const began = Date.now();
      // How long the page itself is ever busy: the longest time between two of its turns.
      await browser.evaluate("(() => { window.longest = 0; let last = performance.now(); const look = () => { const now = performance.now(); window.longest = Math.max(window.longest, now - last); last = now; setTimeout(look, 5); }; look(); })()");
      await browser.until(STUDIED, 60000);
      times.push(Date.now() - began);
      busy.push(await browser.evaluate<number>("window.longest"));
    }
    assert.ok(Math.min(...times) < 5000, `${times.join(" ")} ms`);
    assert.ok(Math.min(...busy) < 1500, `busy for ${busy.join(" ")} ms`);
    clean();
  });

  test("what takes long shows its progress and stops on demand, and the ranking still answers", async () => {
    const file = join(folder, "long.bin");
    writeFileSync(file, six());
    const long = Array.from({ length: 200 }, (_, at) => [...(0x3c0000 + 977 * at).toString(2)].concat("0", "1").map((bit) => (bit === "1" ? "1" : "2")).slice(0, 24).join(","));
    await browser.size(DESKTOP);
    await browser.open(await own(file, ...new Set(long)), "document.querySelector('progress')");
    await browser.evaluate("document.querySelector('.chip .name').focus()");
    await browser.key("End");
    await browser.until("location.hash === '#123450' && document.querySelector('.tableau')", 10000);
    assert.ok(await browser.evaluate("Boolean(document.querySelector('#stop'))"), "it is over before it could be stopped");
    await browser.evaluate("document.querySelector('#stop').click()");
    await browser.until("!document.querySelector('progress')", 3000);
    await browser.until("document.getElementById('count').textContent.includes('not all asked')");
    clean();
  });
});
