/** Text for a terminal or a pipe, JSON for programs, and files that are written whole or not at all. */
import { readFileSync, renameSync, rmSync, statSync, writeFileSync } from "node:fs";
import { basename, dirname, join } from "node:path";
import { BadInput } from "../model/badInput";

export type Paint = "bold" | "red";
const PAINTS: Record<Paint, string> = { bold: "1", red: "31" };

/** A text in colour, on a terminal alone. */
export function painted(text: string, paint: Paint): string {
  if (!text || !process.stdout.isTTY || process.env["NO_COLOR"]) return text;
  return `\x1b[${PAINTS[paint]}m${text}\x1b[0m`;
}

/** The places that a text takes on a terminal, its colours and combining letters not counted. */
function width(text: string): number {
  return [...text.replace(/\x1b\[[0-9;]*m/g, "").replace(/\p{M}/gu, "")].length;
}

/** Rows in columns, two spaces between them. */
export function table(rows: readonly (readonly string[])[], indent = ""): string {
  const widths = rows[0]!.map((_, at) => Math.max(...rows.map((row) => width(row[at]!))));
  return rows.map((row) => (indent + row.map((cell, at) => cell + " ".repeat(widths[at]! - width(cell))).join("  ")).trimEnd()).join("\n");
}

/** Where what is said goes: a test listens by setting these. */
export const sink = {
  out: (text: string): void => void process.stdout.write(text),
  err: (text: string): void => void process.stderr.write(text),
};

export function print(text: string): void {
  sink.out(`${text}\n`);
}

/** JSON on one line, with a space behind commas and colons. */
export function json(value: unknown): string {
  if (Array.isArray(value)) return `[${value.map(json).join(", ")}]`;
  if (value !== null && typeof value === "object") {
    return `{${Object.entries(value).map(([name, each]) => `${JSON.stringify(name)}: ${json(each)}`).join(", ")}}`;
  }
  return typeof value === "bigint" ? String(value) : JSON.stringify(value);
}

const REASONS: Record<string, string> = {
  ENOENT: "No such file or directory",
  EISDIR: "Is a directory",
  ENOTDIR: "Not a directory",
  EACCES: "Permission denied",
  ENOSPC: "No space left on device",
  EROFS: "Read-only file system",
};

function reason(error: unknown): string {
  const code = (error as { code?: string }).code ?? "";
  return REASONS[code] ?? (code || String(error));
}

export function readBytes(path: string): Uint8Array {
  try {
    return new Uint8Array(readFileSync(path));
  } catch (error) {
    throw new BadInput(`${path}: cannot be read: ${reason(error)}`);
  }
}

export function isFile(path: string): boolean {
  return statSync(path, { throwIfNoEntry: false })?.isFile() ?? false;
}

export function isFolder(path: string): boolean {
  return statSync(path, { throwIfNoEntry: false })?.isDirectory() ?? false;
}

/** Writes a file beside its place and renames it: it is there whole, or as it was before. */
export function writeWhole(path: string, contents: string | Uint8Array): void {
  const beside = join(dirname(path), `.desk.${process.pid}.${basename(path)}`);
  try {
    writeFileSync(beside, contents, { flag: "wx" });
    renameSync(beside, path);
  } catch (error) {
    rmSync(beside, { force: true });
    throw new BadInput(`${path}: cannot be written: ${reason(error)}`);
  }
}
