/** What is used of node, for the type checker: Debian has the types of its own node alone. */
declare const process: {
  argv: string[];
  env: Record<string, string | undefined>;
  exitCode: number | undefined;
  platform: string;
  stdout: NodeStream;
  stderr: NodeStream;
  cwd(): string;
  chdir(folder: string): void;
  exit(status?: number): never;
  umask(): number;
  pid: number;
  on(event: string, listener: (...given: never[]) => void): void;
  once(event: string, listener: (...given: never[]) => void): void;
  removeListener(event: string, listener: (...given: never[]) => void): void;
};
interface NodeStream {
  isTTY?: boolean;
  write(text: string, done?: (error?: Error | null) => void): boolean;
  on(event: string, listener: (given: never) => void): void;
}
declare function setImmediate(call: () => void): unknown;
declare const __dirname: string;
declare class Buffer extends Uint8Array {
  static from(value: string | ArrayLike<number> | ArrayBuffer, encoding?: string): Buffer;
  static concat(parts: readonly Uint8Array[]): Buffer;
  static byteLength(text: string): number;
  static compare(one: Uint8Array, two: Uint8Array): number;
  override toString(encoding?: string): string;
  equals(other: Uint8Array): boolean;
}
declare module "node:fs" {
  interface Stats { isFile(): boolean; isDirectory(): boolean; size: number }
  export function readFileSync(path: string): Buffer;
  export function readFileSync(path: string, encoding: "utf8"): string;
  export function writeFileSync(path: string, contents: string | Uint8Array, options?: { mode?: number; flag?: string }): void;
  export function existsSync(path: string): boolean;
  export function statSync(path: string, options: { throwIfNoEntry: false }): Stats | undefined;
  export function readdirSync(path: string): string[];
  export function mkdirSync(path: string, options?: { recursive?: boolean }): void;
  export function mkdtempSync(prefix: string): string;
  export function renameSync(from: string, to: string): void;
  export function rmSync(path: string, options?: { recursive?: boolean; force?: boolean }): void;
  export function cpSync(from: string, to: string, options?: { recursive?: boolean }): void;
  export function copyFileSync(from: string, to: string): void;
  export function realpathSync(path: string): string;
}
declare module "node:path" {
  export function join(...parts: string[]): string;
  export function resolve(...parts: string[]): string;
  export function dirname(path: string): string;
  export function basename(path: string, ending?: string): string;
  export function extname(path: string): string;
}
declare module "node:os" {
  export function tmpdir(): string;
}
declare module "node:child_process" {
  interface Child {
    pid: number;
    exitCode: number | null;
    stdout: NodeStream;
    stderr: NodeStream;
    kill(signal?: string): boolean;
    on(event: string, listener: (...given: never[]) => void): void;
  }
  interface Ran { status: number | null; signal: string | null; stdout: string; stderr: string; error?: Error & { code?: string } }
  export function spawn(command: string, given: readonly string[], options?: object): Child;
  export function spawnSync(command: string, given: readonly string[], options: { encoding: "utf8"; [option: string]: unknown }): Ran;
}
declare module "node:test" {
  interface TestContext { diagnostic(text: string): void }
  type Body = (context: TestContext) => void | Promise<void>;
  export function test(name: string, body: Body): Promise<void>;
  export function describe(name: string, body: () => void): void;
  export function before(body: () => void | Promise<void>): void;
  export function after(body: () => void | Promise<void>): void;
}
declare module "node:assert/strict" {
  interface Assert {
    (value: unknown, message?: string): asserts value;
    equal(one: unknown, two: unknown, message?: string): void;
    notEqual(one: unknown, two: unknown, message?: string): void;
    deepEqual(one: unknown, two: unknown, message?: string): void;
    ok(value: unknown, message?: string): asserts value;
    match(text: string, pattern: RegExp, message?: string): void;
    throws(call: () => unknown, error?: object): void;
    fail(message: string): never;
  }
  const assert: Assert;
  export default assert;
}
declare module "ws" {
  export default class WebSocket {
    constructor(address: string, options?: object);
    on(event: "open" | "close", listener: () => void): void;
    on(event: "error", listener: (error: Error) => void): void;
    on(event: "message", listener: (data: { toString(): string }) => void): void;
    send(text: string): void;
    close(): void;
  }
}
