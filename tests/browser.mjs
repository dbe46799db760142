// Opens a page from the disk in headless Chromium, and controls it over a pipe by the DevTools protocol.
import { spawn } from 'node:child_process';
import fs from 'node:fs';
import os from 'node:os';
import path from 'node:path';

const FLAGS = ['--headless=new', '--no-sandbox', '--disable-gpu', '--remote-debugging-pipe', '--no-first-run',
  '--disable-background-networking', '--disable-dev-shm-usage'];

export class Browser {
  constructor(program) {
    this.profile = fs.mkdtempSync(path.join(os.tmpdir(), 'exact-page-'));
    const words = [...FLAGS, `--user-data-dir=${this.profile}`, 'about:blank'];
    this.process = spawn(program, words, { stdio: ['ignore', 'ignore', 'ignore', 'pipe', 'pipe'] });
    this.waiting = new Map();
    this.listeners = [];
    this.number = 0;
    let text = '';
    this.process.stdio[4].setEncoding('utf8').on('data', data => {
      const parts = (text + data).split('\0');
      text = parts.pop();
      parts.forEach(part => this.hear(JSON.parse(part)));
    });
  }

  hear(said) {
    this.listeners.forEach(listener => listener(said));
    const answer = this.waiting.get(said.id);
    this.waiting.delete(said.id);
    if (answer) answer(said);
  }

  async call(method, params = {}) {
    const id = this.number += 1;
    const said = new Promise(resolve => this.waiting.set(id, resolve));
    this.process.stdio[3].write(`${JSON.stringify({ id, method, params, sessionId: this.session })}\0`);
    const { result, error } = await said;
    if (error) throw new Error(`${method}: ${error.message}`);
    return result;
  }

  // Opens a file. Its requests and its error messages are recorded.
  async open(file) {
    const { targetId } = await this.call('Target.createTarget', { url: 'about:blank' });
    this.session = (await this.call('Target.attachToTarget', { targetId, flatten: true })).sessionId;
    this.requests = [];
    this.complaints = [];
    this.listeners.push(({ method, params }) => {
      if (method === 'Network.requestWillBeSent') this.requests.push(params.request.url);
      if (method === 'Runtime.exceptionThrown') this.complaints.push(JSON.stringify(params.exceptionDetails));
      if (method === 'Log.entryAdded') this.complaints.push(params.entry.text);
    });
    for (const domain of ['Page', 'Runtime', 'Network', 'Log']) await this.call(`${domain}.enable`);
    await this.call('Page.navigate', { url: `file://${path.resolve(file)}` });
    await this.until('document.readyState === "complete"');
  }

  // The value of an expression in the page.
  async value(expression) {
    const told = await this.call('Runtime.evaluate', { expression, awaitPromise: true, returnByValue: true });
    if (told.exceptionDetails) throw new Error(told.exceptionDetails.exception?.description ?? expression);
    return told.result.value;
  }

  async until(expression, seconds = 60) {
    for (let i = 0; i < seconds * 100; i += 1) {
      if (await this.value(expression)) return;
      await new Promise(resolve => setTimeout(resolve, 10));
    }
    throw new Error(`it never came true: ${expression}`);
  }

  async version() {
    return (await this.call('Browser.getVersion')).product;
  }

  async close() {
    const ended = new Promise(resolve => this.process.once('exit', resolve));
    this.process.stdio[3].write(`${JSON.stringify({ id: 0, method: 'Browser.close' })}\0`);
    await ended;
    fs.rmSync(this.profile, { recursive: true, force: true, maxRetries: 20, retryDelay: 100 });
  }
}
