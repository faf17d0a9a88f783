// A headless Chromium, driven by the DevTools protocol over two pipes.
import { spawn, spawnSync } from "node:child_process";
import { mkdtempSync, rmSync } from "node:fs";
import { tmpdir } from "node:os";
import { join } from "node:path";

const NAMES = ["chromium", "chromium-browser", "google-chrome", "google-chrome-stable"];
const SECONDS = 60;

/** The path of an installed Chromium, or nothing. @returns {string|undefined} */
export function chromium() {
  return NAMES.find((name) => spawnSync(name, ["--version"], { stdio: "ignore" }).status === 0);
}

/** A browser with one page. */
export class Browser {
  /** @param {string} program */
  constructor(program) {
    this.profile = mkdtempSync(join(tmpdir(), "view-"));
    const words = ["--headless", "--no-sandbox", "--disable-gpu", "--no-first-run", "--remote-debugging-pipe",
      `--user-data-dir=${this.profile}`, "about:blank"];
    this.process = spawn(program, words, { stdio: ["ignore", "ignore", "ignore", "pipe", "pipe"] });
    this.exited = new Promise((resolve) => this.process.once("exit", resolve));
    this.calls = new Map();
    this.events = [];
    this.last = 0;
    this.text = "";
    this.process.stdio[4].setEncoding("utf8").on("data", (data) => this.receive(data));
  }

  /** Reads messages, which end with a zero. @param {string} data */
  receive(data) {
    const messages = (this.text + data).split("\0");
    this.text = messages.pop();
    for (const message of messages.map((text) => JSON.parse(text))) {
      const call = this.calls.get(message.id);
      if (call === undefined) {
        this.events.push(message.method);
      } else {
        this.calls.delete(message.id);
        if (message.error) call.reject(new Error(message.error.message));
        else call.resolve(message.result);
      }
    }
  }

  /** Calls a method of the protocol. @returns {Promise<object>} */
  send(method, params = {}) {
    this.last += 1;
    const id = this.last;
    this.process.stdio[3].write(`${JSON.stringify({ id, method, params, sessionId: this.session })}\0`);
    return new Promise((resolve, reject) => {
      const timer = setTimeout(() => reject(new Error(`${method} takes more than ${SECONDS} seconds`)), SECONDS * 1000);
      const done = (end) => (value) => {
        clearTimeout(timer);
        end(value);
      };
      this.calls.set(id, { resolve: done(resolve), reject: done(reject) });
    });
  }

  /** Opens a page, and waits until it has loaded. @param {string} url */
  async open(url) {
    const { targetInfos } = await this.send("Target.getTargets");
    const { targetId } = targetInfos.find(({ type }) => type === "page");
    this.session = (await this.send("Target.attachToTarget", { targetId, flatten: true })).sessionId;
    await this.send("Page.enable");
    await this.send("Page.navigate", { url });
    await this.until('document.readyState === "complete" && !!globalThis.Loft?.page');
  }

  /** The value of an expression on the page. @param {string} expression @returns {Promise<any>} */
  async value(expression) {
    const found = await this.send("Runtime.evaluate", { expression, returnByValue: true, awaitPromise: true });
    if (found.exceptionDetails) throw new Error(found.exceptionDetails.exception?.description ?? found.exceptionDetails.text);
    return found.result.value;
  }

  /** Waits until an expression holds on the page. @param {string} expression */
  async until(expression) {
    const end = Date.now() + SECONDS * 1000;
    while (!(await this.value(expression))) {
      if (Date.now() > end) throw new Error(`it doesn't come to ${expression}`);
      await new Promise((resolve) => setTimeout(resolve, 20));
    }
  }

  /** Chooses a file on the page, as a user does. @param {string} selector @param {string} file */
  async choose(selector, file) {
    const { root } = await this.send("DOM.getDocument");
    const { nodeId } = await this.send("DOM.querySelector", { nodeId: root.nodeId, selector });
    await this.send("DOM.setFileInputFiles", { nodeId, files: [file] });
  }

  /** Presses a key. @param {string} key */
  async press(key) {
    await this.send("Input.dispatchKeyEvent", { type: "keyDown", key, code: key });
    await this.send("Input.dispatchKeyEvent", { type: "keyUp", key, code: key });
  }

  /** Moves the pointer. @param {number} x @param {number} y */
  async move(x, y) {
    await this.send("Input.dispatchMouseEvent", { type: "mouseMoved", x, y });
  }

  /** Gives the page a size. @param {number} width @param {number} height */
  async size(width, height, dark = false) {
    await this.send("Emulation.setDeviceMetricsOverride", { width, height, deviceScaleFactor: 1, mobile: width < 600 });
    await this.send("Emulation.setEmulatedMedia", { features: [{ name: "prefers-color-scheme", value: dark ? "dark" : "light" }] });
  }

  /** A picture of the page, as PNG. @returns {Promise<Buffer>} */
  async screenshot() {
    return Buffer.from((await this.send("Page.captureScreenshot")).data, "base64");
  }

  /** Ends the browser. */
  async close() {
    this.session = undefined;
    await this.send("Browser.close").catch(() => this.process.kill());
    await this.exited;
    rmSync(this.profile, { recursive: true, force: true, maxRetries: 5 });
  }
}
