/** Cards on a disk: card.bin, and the card.txt beside it where there is one. */
import { basename, dirname, extname, join, resolve } from "node:path";
import { Engine } from "../engine/engine";
import { FILE_BYTES, WORD } from "../engine/limits";
import { Refused } from "../engine/refusals";
import { BadInput } from "../model/badInput";
import { Card, Line, machinesOf, numbered, same } from "../model/card";
import { Mistake, readCardText } from "../model/cardText";
import { isFile, isFolder, readBytes } from "./output";

/** The card file that a path names: itself, or the card.bin of a folder. */
export function placeOf(path: string): string {
  const file = isFolder(path) ? join(path, "card.bin") : path;
  if (!isFile(file)) throw new BadInput(`${file}: no such card`);
  return file;
}

/** The bytes of a card file, at most those that the engine has to see. */
export function cardFile(file: string): Uint8Array {
  return readBytes(file).slice(0, FILE_BYTES);
}

/** A card.txt; a mistake in it is named by its file and line. */
export function readText(engine: Engine, path: string, title: string): Card {
  const bytes = readBytes(path);
  let text: string;
  try {
    text = new TextDecoder("utf-8", { fatal: true }).decode(bytes);
  } catch {
    throw new BadInput(`${path}:${lineOfBadByte(bytes)}: not UTF-8 text`);
  }
  try {
    return readCardText(engine, title, text);
  } catch (error) {
    throw error instanceof Mistake ? new BadInput(`${path}:${error.line}: ${error.reason}`) : error;
  }
}

/** The line of the first byte that no text in UTF-8 has there. */
function lineOfBadByte(bytes: Uint8Array): number {
  let line = 1;
  let start = 0;
  for (let at = 0; at <= bytes.length; at++) {
    if (at < bytes.length && bytes[at] !== 10) continue;
    try {
      new TextDecoder("utf-8", { fatal: true }).decode(bytes.subarray(start, at));
    } catch {
      return line;
    }
    line++;
    start = at + 1;
  }
  return line;
}

export function titleOf(file: string): string {
  return basename(file) === "card.bin" || basename(file) === "card.txt" ? basename(dirname(resolve(file))) : basename(file, extname(file));
}

/** The card at a path, with its names. A card.bin that its card.txt does not say is bad input. A card.txt by itself is a card, too. */
export function load(engine: Engine, path: string): Card {
  if (!isFolder(path) && extname(path) === ".txt" && isFile(path)) return readText(engine, path, titleOf(path));
  const file = placeOf(path);
  const bytes = cardFile(file);
  const title = titleOf(file);
  let machines;
  try {
    machines = machinesOf(engine, bytes);
  } catch (error) {
    throw error instanceof Refused ? new BadInput(`${file}: ${error.message}; \`desk show\` says where`) : error;
  }
  const own = basename(file) === "card.bin";
  const [text, lines] = [join(dirname(file), "card.txt"), join(dirname(file), "stdin")];
  if (!isFile(text)) return numbered(title, bytes, machines, own && isFile(lines) ? readLines(readBytes(lines), bytes) : []);
  const said = readText(engine, text, title);
  if (same([...said.bytes], [...bytes])) return said;
  if (own) throw new BadInput(`${text} says another card than card.bin beside it: \`desk make\` makes it anew`);
  return numbered(title, bytes, machines);
}

/** The rankings and words of the board's lines; those that are none on this card are passed over. */
function readLines(text: Uint8Array, card: Uint8Array): Line[] {
  const lines: Line[] = [];
  for (const [, order, symbols] of new TextDecoder("latin1").decode(text).matchAll(/^(\d{1,9}) ((?:\d{1,3}(?:,\d{1,3})*)?)$/gm)) {
    const ranking = [...order!].map(Number);
    const word = symbols!.split(",").filter((symbol) => symbol).map(Number);
    const right = same([...ranking].sort(), Array.from({ length: card[0]! }, (_, machine) => machine));
    if (right && word.length <= WORD && word.every((symbol) => symbol >= 1 && symbol <= card[1]!)) lines.push({ ranking, word });
  }
  return lines;
}
