// A headless chromium, spoken to over its debugging pipe: opens pages, presses keys, asks what a page shows.
import { spawn } from "node:child_process";

const KEYS = {
  ArrowLeft: 37, ArrowUp: 38, ArrowRight: 39, ArrowDown: 40, Home: 36, End: 35, Tab: 9, Enter: 13, " ": 32,
};

export class Browser {
  #child; #buffer = ""; #next = 1; #waiting = new Map(); #session; #errors = [];

  /** Starts the browser with a profile of its own in `folder`. */
  static async start(folder) {
    const browser = new Browser();
    browser.#child = spawn("chromium", ["--headless=new", "--no-sandbox", "--disable-gpu", "--no-first-run",
      "--disable-dev-shm-usage", `--user-data-dir=${folder}`, "--remote-debugging-pipe", "about:blank"],
    { stdio: ["ignore", "ignore", "ignore", "pipe", "pipe"] });
    browser.#child.once("exit", () => browser.#giveUp());
    browser.#child.stdio[4].setEncoding("utf8").on("data", text => browser.#take(text));
    const { targetInfos } = await browser.#call("Target.getTargets");
    const { targetId } = targetInfos.find(target => target.type === "page");
    ({ sessionId: browser.#session } = await browser.#call("Target.attachToTarget", { targetId, flatten: true }));
    await browser.#call("Page.enable");
    await browser.#call("Runtime.enable");
    return browser;
  }

  #take(text) {
    this.#buffer += text;
    const messages = this.#buffer.split("\0");
    this.#buffer = messages.pop();
    for (const message of messages.map(one => JSON.parse(one))) {
      if (message.method === "Runtime.exceptionThrown") this.#errors.push(message.params.exceptionDetails);
      const key = message.id ?? message.method, waiting = this.#waiting.get(key);
      this.#waiting.delete(key);
      if (message.error) waiting?.reject(new Error(message.error.message));
      else waiting?.resolve(message.result ?? message.params);
    }
  }

  /** The browser has ended, so nothing that is waited for will come. */
  #giveUp() {
    for (const { reject } of this.#waiting.values()) reject(new Error("the browser has ended"));
    this.#waiting.clear();
  }

  #call(method, params = {}) {
    const id = this.#next++;
    this.#child.stdio[3].write(JSON.stringify({ id, method, params, sessionId: this.#session }) + "\0");
    return new Promise((resolve, reject) => this.#waiting.set(id, { resolve, reject }));
  }

  #event(method) {
    return new Promise((resolve, reject) => this.#waiting.set(method, { resolve, reject }));
  }

  /** Opens a page and waits until it is loaded; by way of a blank page, since another `#..` alone loads nothing. */
  async open(address) {
    for (const url of ["about:blank", address]) {
      const loaded = this.#event("Page.loadEventFired");
      await this.#call("Page.navigate", { url });
      await loaded;
    }
  }

  /** The value of an expression in the page. */
  async ask(expression) {
    const { result, exceptionDetails } =
      await this.#call("Runtime.evaluate", { expression, returnByValue: true, awaitPromise: true });
    if (exceptionDetails) throw new Error(`${expression}: ${exceptionDetails.exception?.description}`);
    return result.value;
  }

  /** What pages did not catch since this was last asked for. */
  takeErrors() {
    return this.#errors.splice(0).map(one => one.exception?.description ?? one.text);
  }

  async press(key) {
    const code = { key, code: key, windowsVirtualKeyCode: KEYS[key] };
    await this.#call("Input.dispatchKeyEvent", { type: "keyDown", ...code });
    await this.#call("Input.dispatchKeyEvent", { type: "keyUp", ...code });
  }

  async size(width, height) {
    await this.#call("Emulation.setDeviceMetricsOverride", { width, height, deviceScaleFactor: 1, mobile: false });
  }

  /** `light` or `dark`. */
  async scheme(value) {
    await this.media("", value);
  }

  /** Lays the page out for `screen` or `print`, and for a scheme of `light` or `dark`. */
  async media(media, value = "light") {
    await this.#call("Emulation.setEmulatedMedia", { media, features: [{ name: "prefers-color-scheme", value }] });
  }

  /** The page on paper of the usual size, as PDF bytes. */
  async paper() {
    const { data } = await this.#call("Page.printToPDF", { preferCSSPageSize: true });
    return Buffer.from(data, "base64");
  }

  /** A picture of what is in view, or of all of the page, as PNG bytes. */
  async picture(captureBeyondViewport = false) {
    const { data } = await this.#call("Page.captureScreenshot", { format: "png", captureBeyondViewport });
    return Buffer.from(data, "base64");
  }

  /** Ends the browser, and waits until it has left its profile alone. */
  async stop() {
    const ended = new Promise(resolve => this.#child.once("exit", resolve));
    this.#child.kill();
    await ended;
  }
}
