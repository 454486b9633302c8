// Chromium and Firefox without a window, each by its own protocol: open a page, run a line in it, give it a file,
// click, and take a picture of it. Each has a profile of its own, which goes with it.
import { spawn } from 'node:child_process';
import fs from 'node:fs';
import net from 'node:net';
import os from 'node:os';
import path from 'node:path';

const PATIENCE = Number(process.env.PATIENCE ?? 1); // times as long is waited
const STEP_MILLISECONDS = 50;
const MARIONETTE_TRIES = 400 * PATIENCE;
const KEYS = { Tab: '\uE004', Enter: '\uE007', Escape: '\uE00C' }; // of Firefox
const LANGUAGES = 'intl.accept_languages'; // of Firefox
const SCHEME = 'layout.css.prefers-color-scheme.content-override'; // of Firefox
const [DARK, LIGHT] = [0, 1];

/** @param {number} milliseconds */
export const pause = (milliseconds) => new Promise((go) => setTimeout(go, milliseconds));

/** @param {string} file of /proc, or nothing where the process has ended */
function readOf(file) {
  try {
    return fs.readFileSync(file, 'utf8');
  } catch {
    return '';
  }
}

/** @param {string} pid */
const parentOf = (pid) => /^PPid:\s+(\d+)/m.exec(readOf(`/proc/${pid}/status`))?.[1];

/** @param {string} pid */
const shareOf = (pid) => 1024 * Number(/^Pss:\s+(\d+)/m.exec(readOf(`/proc/${pid}/smaps_rollup`))?.[1] ?? 0);

class Browser {
  warnings = []; // dialogs that were shown, and closed

  constructor() {
    this.profile = fs.mkdtempSync(path.join(os.tmpdir(), 'browser-'));
    this.downloads = path.join(this.profile, 'downloads');
    fs.mkdirSync(this.downloads);
  }

  /**
   * Waits until a line of the page's is true.
   * @param {string} line
   * @param {number} seconds
   */
  async until(line, seconds = 60) {
    for (const end = Date.now() + 1000 * seconds * PATIENCE; Date.now() < end; await pause(STEP_MILLISECONDS)) {
      if (await this.evaluate(line)) return;
    }
    const state = await this.evaluate("document.getElementById('state').textContent");
    throw new Error(`after ${seconds} s not yet: ${line}; ${state}`);
  }

  /**
   * Waits for a file that is saved, and gives its bytes.
   * @param {RegExp} name
   * @param {number} seconds
   */
  async saved(name, seconds = 60) {
    for (const end = Date.now() + 1000 * seconds * PATIENCE; Date.now() < end; await pause(STEP_MILLISECONDS)) {
      const names = fs.readdirSync(this.downloads);
      const found = names.find((it) => name.test(it));
      if (found && !names.some((it) => /\.(part|crdownload)$/.test(it))) {
        const bytes = fs.readFileSync(path.join(this.downloads, found));
        if (bytes.length) return { name: found, bytes };
      }
    }
    throw new Error(`nothing was saved as ${name}`);
  }

  /** The memory of all its processes in bytes, those that they share counted once. */
  memory() {
    const pids = fs.readdirSync('/proc').filter((it) => /^\d+$/.test(it));
    const parents = new Map(pids.map((pid) => [pid, parentOf(pid)]));
    const isOwn = (pid) => pid !== undefined && (pid === String(this.process.pid) || isOwn(parents.get(pid)));
    return pids.filter(isOwn).reduce((sum, pid) => sum + shareOf(pid), 0);
  }

  async close() {
    this.process.kill();
    await new Promise((go) => (this.process.exitCode === null ? this.process.once('exit', go) : go(null)));
    await pause(200);
    fs.rmSync(this.profile, { recursive: true, force: true, maxRetries: 5 });
  }
}

/** By the protocol of its developer tools, over a pipe. */
export class Chromium extends Browser {
  name = 'Chromium';
  requests = [];
  faults = [];

  static async start() {
    const it = new Chromium();
    const plain = ['--headless', '--no-sandbox', '--disable-gpu', '--lang=en', '--window-size=1100,900', 'about:blank'];
    const words = ['--remote-debugging-pipe', `--user-data-dir=${it.profile}`, ...plain];
    it.process = spawn('chromium', words, { stdio: ['ignore', 'ignore', 'ignore', 'pipe', 'pipe'] });
    it.waiting = new Map();
    it.sent = 0;
    it.listen(it.process.stdio[4]);
    await it.send('Browser.setDownloadBehavior', { behavior: 'allow', downloadPath: it.downloads });
    const { targetId } = await it.send('Target.createTarget', { url: 'about:blank' });
    it.session = (await it.send('Target.attachToTarget', { targetId, flatten: true })).sessionId;
    for (const domain of ['Page', 'Network', 'Runtime', 'Log']) await it.send(`${domain}.enable`, {}, it.session);
    const attach = { autoAttach: true, waitForDebuggerOnStart: false, flatten: true };
    await it.send('Target.setAutoAttach', attach, it.session);
    it.version = (await it.send('Browser.getVersion')).product;
    return it;
  }

  listen(stream) {
    let rest = '';
    stream.on('data', (part) => {
      const messages = (rest + part).split('\0');
      rest = messages.pop();
      messages.forEach((it) => this.hear(JSON.parse(it)));
    });
  }

  hear(message) {
    if (message.id) {
      const { go, no } = this.waiting.get(message.id);
      this.waiting.delete(message.id);
      if (message.error) no(new Error(message.error.message));
      else go(message.result);
      return;
    }
    const { method, params } = message;
    if (method === 'Target.attachedToTarget') this.send('Network.enable', {}, params.sessionId).catch(() => {});
    if (method === 'Page.javascriptDialogOpening') {
      this.warnings.push(params.type);
      this.send('Page.handleJavaScriptDialog', { accept: true }, message.sessionId).catch(() => {});
    }
    if (method === 'Network.requestWillBeSent') this.requests.push(params.request.url);
    if (method === 'Runtime.exceptionThrown') this.faults.push(JSON.stringify(params.exceptionDetails));
    if (method === 'Log.entryAdded' && params.entry.level === 'error') this.faults.push(params.entry.text);
  }

  send(method, params = {}, sessionId = undefined) {
    this.sent += 1;
    const id = this.sent;
    return new Promise((go, no) => {
      this.waiting.set(id, { go, no });
      this.process.stdio[3].write(`${JSON.stringify({ id, method, params, sessionId })}\0`);
    });
  }

  async open(url) {
    await this.send('Page.navigate', { url }, this.session);
    await this.until("document.readyState === 'complete'");
  }

  async evaluate(expression) {
    const words = { expression, returnByValue: true, awaitPromise: true, userGesture: true };
    const { result, exceptionDetails } = await this.send('Runtime.evaluate', words, this.session);
    if (exceptionDetails) throw new Error(JSON.stringify(exceptionDetails));
    return result.value;
  }

  click(selector) {
    return this.evaluate(`document.querySelector(${JSON.stringify(selector)}).click()`);
  }

  async giveFile(selector, file) {
    const { root } = await this.send('DOM.getDocument', {}, this.session);
    const { nodeId } = await this.send('DOM.querySelector', { nodeId: root.nodeId, selector }, this.session);
    await this.send('DOM.setFileInputFiles', { files: [file].flat(), nodeId }, this.session);
  }

  async key(key, code) {
    for (const type of ['keyDown', 'keyUp']) {
      const text = key === 'Enter' ? '\r' : undefined;
      const event = { type, key, code: key, windowsVirtualKeyCode: code, text };
      await this.send('Input.dispatchKeyEvent', event, this.session);
    }
  }

  /** Shows the page as on a screen of this size. */
  async screen({ width, height, isPhone = false, isDark = false, language = 'en' }) {
    const metrics = { width, height, deviceScaleFactor: isPhone ? 2 : 1, mobile: isPhone };
    await this.send('Emulation.setDeviceMetricsOverride', metrics, this.session);
    const features = [{ name: 'prefers-color-scheme', value: isDark ? 'dark' : 'light' }];
    await this.send('Emulation.setEmulatedMedia', { features }, this.session);
    const { userAgent } = await this.send('Browser.getVersion');
    const spoken = { userAgent, acceptLanguage: language };
    await this.send('Network.setUserAgentOverride', spoken, this.session);
  }

  async picture(file) {
    const { data } = await this.send('Page.captureScreenshot', { format: 'png' }, this.session);
    fs.writeFileSync(file, Buffer.from(data, 'base64'));
  }

  /** The tree that a screen reader gets. */
  async accessibility() {
    return (await this.send('Accessibility.getFullAXTree', {}, this.session)).nodes;
  }
}

/** By Marionette. */
export class Firefox extends Browser {
  name = 'Firefox';

  static async start() {
    const it = new Firefox();
    const port = 20000 + Math.floor(Math.random() * 20000);
    const preferences = {
      'marionette.port': port,
      'browser.download.folderList': 2,
      'browser.download.dir': it.downloads,
      'browser.download.useDownloadDir': true,
      'browser.download.always_ask_before_handling_new_types': false,
      'browser.helperApps.neverAsk.saveToDisk': 'image/png,application/zip,application/octet-stream,text/plain',
      'browser.shell.checkDefaultBrowser': false,
      'intl.accept_languages': 'en',
      'datareporting.policy.dataSubmissionEnabled': false,
      'toolkit.telemetry.reportingpolicy.firstRun': false,
    };
    const line = (words) => `user_pref(${words.map((it) => JSON.stringify(it)).join(', ')});`;
    const lines = Object.entries(preferences).map(line);
    fs.writeFileSync(path.join(it.profile, 'user.js'), lines.join('\n'));
    const words = ['--marionette', '--headless', '--no-remote', '--remote-allow-system-access'];
    words.push('--profile', it.profile);
    it.process = spawn('firefox-esr', words, { stdio: 'ignore', env: { ...process.env, HOME: it.profile } });
    await it.connect(port);
    const { capabilities } = await it.send('WebDriver:NewSession', { capabilities: { alwaysMatch: {} } });
    it.version = `Firefox/${capabilities.browserVersion}`;
    return it;
  }

  async connect(port) {
    for (let left = MARIONETTE_TRIES; ; left -= 1) {
      try {
        this.socket = await new Promise((go, no) => {
          const socket = net.connect(port, '127.0.0.1', () => go(socket));
          socket.once('error', no);
        });
        break;
      } catch (fault) {
        if (left === 0) throw fault;
        await pause(100);
      }
    }
    this.waiting = new Map();
    this.sent = 0;
    await new Promise((go) => this.listen(go));
  }

  /** Messages are their length, a colon, and JSON. The first one greets. */
  listen(greeted) {
    let rest = Buffer.alloc(0);
    this.socket.on('data', (part) => {
      rest = Buffer.concat([rest, part]);
      for (;;) {
        const colon = rest.indexOf(':');
        const length = Number(rest.subarray(0, Math.max(0, colon)).toString());
        if (colon < 0 || rest.length < colon + 1 + length) return;
        const message = JSON.parse(rest.subarray(colon + 1, colon + 1 + length).toString());
        rest = rest.subarray(colon + 1 + length);
        if (Array.isArray(message)) this.hear(message);
        else greeted();
      }
    });
  }

  hear([, id, error, result]) {
    const { go, no } = this.waiting.get(id);
    this.waiting.delete(id);
    if (error) no(new Error(`${error.error}: ${error.message}`));
    else go(result);
  }

  send(name, words = {}) {
    this.sent += 1;
    const text = Buffer.from(JSON.stringify([0, this.sent, name, words]));
    return new Promise((go, no) => {
      this.waiting.set(this.sent, { go, no });
      this.socket.write(Buffer.concat([Buffer.from(`${text.length}:`), text]));
    });
  }

  async open(url) {
    await this.send('WebDriver:Navigate', { url });
    await this.until("document.readyState === 'complete'");
  }

  async evaluate(line) {
    const answer = `Promise.resolve(eval(${JSON.stringify(line)})).then(done, (fault) => done('fault: ' + fault));`;
    const script = `const [done] = arguments; ${answer}`;
    return (await this.send('WebDriver:ExecuteAsyncScript', { script, args: [] })).value;
  }

  async find(selector) {
    const { value } = await this.send('WebDriver:FindElement', { using: 'css selector', value: selector });
    return Object.values(value)[0];
  }

  async click(selector) {
    await this.send('WebDriver:ElementClick', { id: await this.find(selector) });
  }

  async giveFile(selector, file) {
    await this.send('WebDriver:ElementSendKeys', { id: await this.find(selector), text: [file].flat().join('\n') });
  }

  async key(key) {
    const actions = ['keyDown', 'keyUp'].map((type) => ({ type, value: KEYS[key] ?? key }));
    await this.send('WebDriver:PerformActions', { actions: [{ type: 'key', id: 'keyboard', actions }] });
  }

  /** Shows the page in a window of this size. (It has a least width, which is that of a wide phone.) */
  async screen({ width, height, isDark = false, language = 'en' }) {
    await this.send('WebDriver:SetWindowRect', { width, height });
    await this.send('Marionette:SetContext', { value: 'chrome' });
    const colours = `Services.prefs.setIntPref('${SCHEME}', ${isDark ? DARK : LIGHT});`;
    const script = `${colours} Services.prefs.setStringPref('${LANGUAGES}', '${language}');`;
    await this.send('WebDriver:ExecuteScript', { script, args: [] });
    await this.send('Marionette:SetContext', { value: 'content' });
  }

  async picture(file) {
    const { value } = await this.send('WebDriver:TakeScreenshot', { full: true });
    fs.writeFileSync(file, Buffer.from(value, 'base64'));
  }

  async close() {
    this.socket?.destroy();
    await super.close();
  }
}
