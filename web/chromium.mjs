// Chromium without a window, asked through the pipe of its debugging protocol.
import { execFileSync, spawn } from "node:child_process";
import { mkdtempSync, rmSync } from "node:fs";
import { tmpdir } from "node:os";
import { join } from "node:path";

const NAMES = ["chromium", "chromium-browser", "google-chrome"];
const SECONDS = 60;
const LOADED = `new Promise((done) => {
  document.readyState === "complete" ? done() : addEventListener("load", done);
})`;

/** A browser with one page. `events` are what it reported since it began. */
export class Browser {
  constructor(program) {
    this.profile = mkdtempSync(join(tmpdir(), "chromium-"));
    const words = [
      "--headless",
      "--disable-gpu",
      "--no-first-run",
      "--disable-background-networking",
      "--hide-scrollbars",
      "--remote-debugging-pipe",
      `--user-data-dir=${this.profile}`,
    ];
    // Chromium refuses its sandbox to root.
    if (process.getuid() === 0) {
      words.push("--no-sandbox");
    }
    this.child = spawn(program, words, { stdio: ["ignore", "ignore", "ignore", "pipe", "pipe"] });
    this.waiting = new Map();
    this.events = [];
    this.number = 0;
    this.left = Buffer.alloc(0);
    this.child.stdio[4].on("data", (bytes) => this.take(bytes));
    this.child.stdio[3].on("error", () => {});
    this.child.on("exit", () => {
      this.waiting.forEach(({ reject }) => reject(new Error("chromium has ended")));
    });
  }

  // Messages end with a zero byte.
  take(bytes) {
    this.left = Buffer.concat([this.left, bytes]);
    for (let end = this.left.indexOf(0); end >= 0; end = this.left.indexOf(0)) {
      const message = JSON.parse(this.left.subarray(0, end).toString());
      this.left = this.left.subarray(end + 1);
      const asked = this.waiting.get(message.id);
      if (asked === undefined) {
        this.events.push(message);
      } else {
        this.waiting.delete(message.id);
        clearTimeout(asked.timer);
        const { error, result } = message;
        error ? asked.reject(new Error(error.message)) : asked.resolve(result);
      }
    }
  }

  /** Calls a method of the protocol: of the page, or of the browser if the session is null. */
  call(method, params = {}, session = this.session) {
    this.number += 1;
    const id = this.number;
    const sessionId = session ?? undefined;
    return new Promise((resolve, reject) => {
      const late = () => reject(new Error(`${method}: no answer in ${SECONDS} s`));
      this.waiting.set(id, { resolve, reject, timer: setTimeout(late, SECONDS * 1000) });
      this.child.stdio[3].write(`${JSON.stringify({ id, method, params, sessionId })}\0`);
    });
  }

  /** Opens the page. */
  async begin() {
    const { targetId } = await this.call("Target.createTarget", { url: "about:blank" });
    const { sessionId } = await this.call("Target.attachToTarget", { targetId, flatten: true });
    this.session = sessionId;
    const domains = ["Page", "Runtime", "Network", "Log"];
    await Promise.all(domains.map((name) => this.call(`${name}.enable`)));
  }

  /** The value of an expression in the page, or of the promise that it is. */
  async value(expression) {
    const params = { expression, awaitPromise: true, returnByValue: true };
    const { result, exceptionDetails } = await this.call("Runtime.evaluate", params);
    if (exceptionDetails) {
      throw new Error(exceptionDetails.exception?.description ?? exceptionDetails.text);
    }
    return result.value;
  }

  /** The value of an expression once it is the one that is wanted, or after some seconds. */
  async settled(expression, wanted) {
    const end = Date.now() + 10000;
    let value = await this.value(expression);
    while (value !== wanted && Date.now() < end) {
      await new Promise((done) => setTimeout(done, 50));
      value = await this.value(expression);
    }
    return value;
  }

  /** Goes to an address, anew. */
  async go(url) {
    await this.call("Page.navigate", { url: "about:blank" });
    await this.call("Page.navigate", { url });
    await this.value(LOADED);
  }

  /** Waits until a page with this name, to which the page before leads, is loaded. */
  async opened(name) {
    const end = Date.now() + 10000;
    const isThere = `location.pathname.endsWith("/${name}") && document.readyState === "complete"`;
    // What is asked of a page that is just left is refused.
    while (!(await this.value(isThere).catch(() => false))) {
      if (Date.now() > end) {
        throw new Error(`${name} is not opened`);
      }
      await new Promise((done) => setTimeout(done, 20));
    }
  }

  /** The size of the window, and whether its user wants dark pages. */
  async look(width, height, isDark) {
    const size = { width, height, deviceScaleFactor: 1, mobile: width < 600 };
    await this.call("Emulation.setDeviceMetricsOverride", size);
    const features = [{ name: "prefers-color-scheme", value: isDark ? "dark" : "light" }];
    await this.call("Emulation.setEmulatedMedia", { features });
  }

  /** Presses a key. */
  async press(key, code, text) {
    const params = { key, code: key, windowsVirtualKeyCode: code, text };
    await this.call("Input.dispatchKeyEvent", { type: text ? "keyDown" : "rawKeyDown", ...params });
    await this.call("Input.dispatchKeyEvent", { type: "keyUp", ...params });
  }

  /** A picture of the page, as a PNG. */
  async picture() {
    const { data } = await this.call("Page.captureScreenshot", { format: "png" });
    return Buffer.from(data, "base64");
  }

  async end() {
    await this.call("Browser.close", {}, null).catch(() => {});
    if (this.child.exitCode === null) {
      await new Promise((done) => this.child.on("exit", done));
    }
    rmSync(this.profile, { recursive: true, force: true, maxRetries: 5 });
  }
}

/** The program of Chromium. */
export function found() {
  for (const name of NAMES) {
    try {
      return execFileSync("sh", ["-c", `command -v ${name}`]).toString().trim();
    } catch {
      continue;
    }
  }
  throw new Error(`there is none of ${NAMES.join(", ")} here (Debian: chromium)`);
}
