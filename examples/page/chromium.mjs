// Headless Chromium, by the pipe of its debugging protocol: one page that is opened, asked and typed into.
import { spawn } from 'node:child_process';

const WORDS = ['--headless=new', '--no-sandbox', '--disable-gpu', '--disable-dev-shm-usage', '--remote-debugging-pipe',
  '--no-first-run', '--accept-lang=en-US,en', '--hide-scrollbars'];
const SECONDS = 30;

export class Page {
  #process;
  #session;
  #count = 0;
  #waiting = new Map();
  #rest = '';
  /** What went wrong in the page by itself. */
  faults = [];

  static async open(profile) {
    const page = new Page();
    const stdio = ['ignore', 'ignore', 'ignore', 'pipe', 'pipe'];
    page.#process = spawn('chromium', [...WORDS, `--user-data-dir=${profile}`, 'about:blank'], { stdio });
    page.#process.stdio[4].on('data', (bytes) => page.#heard(bytes.toString()));
    const { targetId } = await page.send('Target.createTarget', { url: 'about:blank' });
    const { sessionId } = await page.send('Target.attachToTarget', { targetId, flatten: true });
    page.#session = sessionId;
    for (const domain of ['Page', 'Runtime', 'Network', 'Log', 'Accessibility']) await page.send(`${domain}.enable`);
    await page.send('Network.setCacheDisabled', { cacheDisabled: true });
    return page;
  }

  #heard(text) {
    const parts = (this.#rest + text).split('\0');
    this.#rest = parts.pop();
    for (const { id, result, error, method, params } of parts.map((it) => JSON.parse(it))) {
      if (method === 'Runtime.exceptionThrown') this.faults.push(params.exceptionDetails.exception?.description);
      if (method === 'Log.entryAdded' && params.entry.level === 'error') this.faults.push(params.entry.text);
      if (id) this.#waiting.get(id)(error ? { fault: error.message } : result);
    }
  }

  async send(method, params = {}) {
    this.#count += 1;
    const id = this.#count;
    const answer = new Promise((resolve) => { this.#waiting.set(id, resolve); });
    this.#process.stdio[3].write(`${JSON.stringify({ id, method, params, sessionId: this.#session })}\0`);
    const late = new Promise((resolve) => { setTimeout(resolve, SECONDS * 1000, { fault: 'no answer' }).unref(); });
    const told = await Promise.race([answer, late]);
    if (told.fault) throw new Error(`${method}: ${told.fault}`);
    return told;
  }

  /** The value of an expression in the page. */
  async value(expression) {
    const told = await this.send('Runtime.evaluate', { expression, returnByValue: true, awaitPromise: true });
    if (told.exceptionDetails) throw new Error(told.exceptionDetails.exception.description);
    return told.result.value;
  }

  /** Opens an address on a screen of a width, and waits until an expression holds. */
  async visit(address, width, expression) {
    await this.send('Emulation.setDeviceMetricsOverride', { width, height: 800, deviceScaleFactor: 1, mobile: width < 600 });
    await this.send('Page.navigate', { url: address });
    const end = Date.now() + SECONDS * 1000;
    while (!(await this.value(expression))) {
      if (Date.now() > end) throw new Error(`the page did not come to ${expression}: ${this.faults}`);
      await new Promise((resolve) => { setTimeout(resolve, 20); });
    }
  }

  async press(key, code = key, text = undefined) {
    const keys = { Tab: 9, Enter: 13, ArrowDown: 40, ArrowUp: 38, Backspace: 8 };
    const common = { key, code, windowsVirtualKeyCode: keys[key], text: key === 'Enter' ? '\r' : text };
    await this.send('Input.dispatchKeyEvent', { type: 'keyDown', ...common });
    await this.send('Input.dispatchKeyEvent', { type: 'keyUp', ...common, text: undefined });
  }

  /** Types a text in place of what the focused field has. */
  async type(text) {
    await this.value('document.activeElement.select?.()');
    await this.send('Input.insertText', { text });
  }

  async picture() {
    const { cssContentSize: { width, height } } = await this.send('Page.getLayoutMetrics');
    const clip = { x: 0, y: 0, width, height, scale: 1 };
    const { data } = await this.send('Page.captureScreenshot', { captureBeyondViewport: true, clip });
    return Buffer.from(data, 'base64');
  }

  async close() {
    const ended = new Promise((resolve) => { this.#process.on('exit', resolve); });
    this.#session = undefined;
    await this.send('Browser.close');
    await ended;
  }
}
