/** A headless Chromium over the DevTools protocol: a page, its script errors, keys, pointers, pictures. */
import { spawn } from "node:child_process";
import { existsSync, mkdtempSync, rmSync, writeFileSync } from "node:fs";
import { tmpdir } from "node:os";
import { join } from "node:path";
import WebSocket from "ws";

const PROGRAMS = ["/usr/bin/chromium", "/usr/bin/chromium-browser", "/usr/bin/google-chrome"];

export interface Size {
  readonly width: number;
  readonly height: number;
  readonly mobile?: boolean;
}

interface Message {
  readonly id?: number;
  readonly method?: string;
  readonly params?: Record<string, unknown>;
  readonly result?: Record<string, unknown>;
  readonly error?: { message: string };
}

export const wait = (milliseconds: number): Promise<void> => new Promise((resolve) => setTimeout(resolve, milliseconds));

export class Browser {
  private next = 1;
  private readonly waiting = new Map<number, { resolve: (result: Record<string, unknown>) => void; reject: (error: Error) => void }>();
  /** Script errors and errors on the console. */
  readonly errors: string[] = [];
  /** Addresses that were asked for, beside the page's own. */
  readonly requests: string[] = [];

  private constructor(private readonly socket: WebSocket, private readonly close_: () => void) {
    socket.on("message", (data) => this.hear(JSON.parse(data.toString()) as Message));
  }

  /** Starts a Chromium. One that is not installed is an error that says how to install it. */
  static async start(): Promise<Browser> {
    const program = process.env["CHROMIUM"] ?? PROGRAMS.find((path) => existsSync(path));
    if (!program) throw new Error("Chromium is missing: apt-get install chromium");
    const folder = mkdtempSync(join(tmpdir(), "desk-chromium-"));
    const child = spawn(program, ["--headless=new", "--no-sandbox", "--disable-gpu", "--disable-dev-shm-usage", "--hide-scrollbars", "--remote-debugging-port=0", `--user-data-dir=${folder}`, "about:blank"]);
    const close = () => {
      child.kill("SIGKILL");
      setTimeout(() => rmSync(folder, { recursive: true, force: true }), 200);
    };
    const address = await new Promise<string>((resolve, reject) => {
      let said = "";
      child.stderr.on("data", (data: { toString(): string }) => {
        said += data.toString();
        const found = /DevTools listening on (ws:\/\/\S+)/.exec(said);
        if (found) resolve(found[1]!);
      });
      child.on("exit", () => reject(new Error(`Chromium ended: ${said}`)));
      setTimeout(() => reject(new Error(`Chromium did not start: ${said}`)), 60000);
    });
    const port = /:(\d+)\//.exec(address)![1]!;
    const pages = (await (await fetch(`http://127.0.0.1:${port}/json`)).json()) as { type: string; webSocketDebuggerUrl: string }[];
    const socket = new WebSocket(pages.find(({ type }) => type === "page")!.webSocketDebuggerUrl, { perMessageDeflate: false });
    await new Promise<void>((resolve, reject) => {
      socket.on("open", resolve);
      socket.on("error", reject);
    });
    const browser = new Browser(socket, close);
    for (const part of ["Page", "Runtime", "Log", "Network", "DOM"]) await browser.send(`${part}.enable`);
    return browser;
  }

  close(): void {
    this.socket.close();
    this.close_();
  }

  private hear(message: Message): void {
    if (message.id !== undefined) {
      const waiting = this.waiting.get(message.id);
      this.waiting.delete(message.id);
      if (message.error) waiting?.reject(new Error(message.error.message));
      else waiting?.resolve(message.result ?? {});
    } else if (message.method === "Runtime.exceptionThrown") this.errors.push(JSON.stringify(message.params));
    else if (message.method === "Log.entryAdded" && (message.params?.["entry"] as { level: string }).level === "error") this.errors.push(JSON.stringify(message.params));
    else if (message.method === "Network.requestWillBeSent") this.requests.push((message.params?.["request"] as { url: string }).url);
  }

  send(method: string, params: object = {}): Promise<Record<string, unknown>> {
    const id = this.next++;
    return new Promise((resolve, reject) => {
      this.waiting.set(id, { resolve, reject });
      this.socket.send(JSON.stringify({ id, method, params }));
    });
  }

  async size({ width, height, mobile = false }: Size): Promise<void> {
    await this.send("Emulation.setDeviceMetricsOverride", { width, height, mobile, deviceScaleFactor: mobile ? 2 : 1 });
  }

  /** Opens an address anew; a page is there when `ready` holds in it. */
  async open(address: string, ready = "document.querySelector('.tableau')"): Promise<void> {
    await this.send("Page.navigate", { url: "about:blank" });
    await this.send("Page.navigate", { url: address });
    await this.until(ready);
  }

  async evaluate<T>(expression: string): Promise<T> {
    const { result, exceptionDetails } = (await this.send("Runtime.evaluate", { expression, returnByValue: true, awaitPromise: true })) as { result: { value: T }; exceptionDetails?: unknown };
    if (exceptionDetails) throw new Error(`${expression}: ${JSON.stringify(exceptionDetails)}`);
    return result.value;
  }

  /** Waits until an expression holds. */
  async until(expression: string, most = 20000): Promise<void> {
    const end = Date.now() + most;
    while (Date.now() < end) {
      if (await this.evaluate<boolean>(`Boolean(${expression})`).catch(() => false)) return;
      await wait(20);
    }
    throw new Error(`it does not come to be: ${expression}; ${this.errors.join("\n")}`);
  }

  async key(key: string, code = key, keyCode = KEYS[key] ?? 0, text = TEXTS[key]): Promise<void> {
    const given = { key, code, windowsVirtualKeyCode: keyCode, ...(text ? { text } : {}) };
    await this.send("Input.dispatchKeyEvent", { type: text ? "keyDown" : "rawKeyDown", ...given });
    await this.send("Input.dispatchKeyEvent", { type: "keyUp", key, code, windowsVirtualKeyCode: keyCode });
  }

  async type(text: string): Promise<void> {
    await this.send("Input.insertText", { text });
  }

  async pointer(type: "mousePressed" | "mouseMoved" | "mouseReleased", x: number, y: number): Promise<void> {
    await this.send("Input.dispatchMouseEvent", { type, x, y, button: "left", buttons: type === "mouseReleased" ? 0 : 1, clickCount: 1 });
  }

  /** The middle of an element. */
  middle(selector: string): Promise<{ x: number; y: number }> {
    return this.evaluate(`(() => { const e = document.querySelector(${JSON.stringify(selector)}); e.scrollIntoView({block: "center"}); const b = e.getBoundingClientRect(); return {x: b.x + b.width / 2, y: b.y + b.height / 2}; })()`);
  }

  async click(selector: string): Promise<void> {
    const { x, y } = await this.middle(selector);
    await this.pointer("mousePressed", x, y);
    await this.pointer("mouseReleased", x, y);
  }

  /** Chooses files in an input. */
  async files(selector: string, files: string[]): Promise<void> {
    const { root } = (await this.send("DOM.getDocument")) as { root: { nodeId: number } };
    const { nodeId } = (await this.send("DOM.querySelector", { nodeId: root.nodeId, selector })) as { nodeId: number };
    await this.send("DOM.setFileInputFiles", { nodeId, files });
  }

  /** A picture of the window, or of the whole page. */
  async picture(file: string, whole = false): Promise<void> {
    const { data } = (await this.send("Page.captureScreenshot", { format: "png", captureBeyondViewport: whole })) as { data: string };
    writeFileSync(file, Buffer.from(data, "base64"));
  }
}

const KEYS: Record<string, number> = { Tab: 9, Enter: 13, Escape: 27, " ": 32, End: 35, Home: 36, ArrowLeft: 37, ArrowUp: 38, ArrowRight: 39, ArrowDown: 40 };
const TEXTS: Record<string, string> = { Enter: "\r", " ": " " };
