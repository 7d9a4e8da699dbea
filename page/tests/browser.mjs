// A page in headless Chromium, by the devtools protocol over two pipes: JSON, each message ended by a zero byte. The
// browser is $CHROMIUM, or chromium on the path.
import { spawn } from "node:child_process";
import { mkdtempSync, rmSync, writeFileSync } from "node:fs";
import { tmpdir } from "node:os";

export const pause = (ms) => new Promise((done) => setTimeout(done, ms));

class Page {
  constructor(ask, heard) {
    Object.assign(this, { ask, heard });
  }
  async value(expression) {
    const told = await this.ask("Runtime.evaluate", { expression, awaitPromise: true, returnByValue: true });
    if (told.exceptionDetails) throw new Error(told.exceptionDetails.exception?.description ?? expression);
    return told.result.value;
  }
  text(id) {
    return this.value(`document.getElementById("${id}").textContent`);
  }
  // Waits until an expression is true in the page.
  async until(expression, what = expression) {
    for (let i = 0; i < 600; i++) {
      if (await this.value(expression).catch(() => false)) return;
      await pause(50);
    }
    throw new Error(`it never came: ${what}`);
  }
  // Waits until all that was asked is shown.
  quiet() {
    return this.until(`work && !due && !isAtWork`, "a quiet page");
  }
  // Types into fields, and waits until what comes of it is shown.
  async set(values) {
    await this.value(`for (const [id, value] of Object.entries(${JSON.stringify(values)})) {
      element(id).value = value;
      element(id).dispatchEvent(new Event("input", { bubbles: true })); }`);
    await this.quiet();
  }
  async click(id) {
    await this.value(`element("${id}").click()`);
    await this.quiet();
  }
  async open(url) {
    await this.ask("Page.navigate", { url: "about:blank" });
    await this.ask("Page.navigate", { url });
    await this.until(`typeof begin === "function"`, url);
    await this.quiet();
  }
  async look(width, isDark) {
    const features = [{ name: "prefers-color-scheme", value: isDark ? "dark" : "light" }];
    await this.ask("Emulation.setEmulatedMedia", { features });
    await this.ask("Emulation.setDeviceMetricsOverride", { width, height: 900, deviceScaleFactor: 1, mobile: false });
    await pause(400);
    await this.quiet();
  }
  async picture(file, clip) {
    const { data } = await this.ask("Page.captureScreenshot", { captureBeyondViewport: true, clip });
    writeFileSync(file, Buffer.from(data, "base64"));
  }
  faults() {
    return this.heard.filter((it) => it.method === "Runtime.exceptionThrown")
      .map((it) => it.params.exceptionDetails.exception?.description ?? it.params.exceptionDetails.text);
  }
}

// Opens a page of its own in a new browser. Returns it with what ends the browser.
export async function openBrowser() {
  const home = mkdtempSync(`${tmpdir()}/page-test-`), waiting = new Map(), heard = [];
  const browser = spawn(process.env.CHROMIUM || "chromium",
    ["--headless", "--no-sandbox", "--disable-gpu", "--remote-debugging-pipe", `--user-data-dir=${home}`, "about:blank"],
    { stdio: ["ignore", "ignore", "ignore", "pipe", "pipe"] });
  browser.on("error", (error) => {
    console.error(`no browser: ${error.message}`);
    process.exit(2);
  });
  let last = 0, rest = "";
  browser.stdio[4].on("data", (data) => {
    const parts = (rest + data).split("\0");
    rest = parts.pop();
    for (const it of parts.map((text) => JSON.parse(text))) {
      if (it.id) waiting.get(it.id)(it);
      else heard.push(it);
    }
  });
  const ask = (method, params = {}, sessionId) => new Promise((give, fail) => {
    waiting.set(++last, (it) => (it.error ? fail(new Error(`${method}: ${it.error.message}`)) : give(it.result)));
    browser.stdio[3].write(`${JSON.stringify({ id: last, method, params, sessionId })}\0`);
  });
  const { targetId } = await ask("Target.createTarget", { url: "about:blank" });
  const { sessionId } = await ask("Target.attachToTarget", { targetId, flatten: true });
  const page = new Page((method, params) => ask(method, params, sessionId), heard);
  await page.ask("Page.enable");
  await page.ask("Runtime.enable");
  const close = async () => {
    browser.kill();
    await new Promise((done) => browser.on("exit", done));
    // The browser's other processes may write to it for a moment longer.
    for (let tries = 1; ; tries++) {
      try {
        return rmSync(home, { recursive: true, force: true });
      } catch (error) {
        if (tries === 100) throw error;
        await pause(100);
      }
    }
  };
  return { page, close };
}
