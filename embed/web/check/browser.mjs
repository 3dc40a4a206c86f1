// A headless Chromium, over the DevTools protocol by pipes: no port is opened.

import { spawn } from 'node:child_process';
import { mkdtempSync, rmSync } from 'node:fs';
import { tmpdir } from 'node:os';
import { join } from 'node:path';

const FLAGS = [
    '--headless=new', '--remote-debugging-pipe', '--no-first-run', '--no-default-browser-check', '--disable-extensions',
    '--disable-background-networking', '--disable-component-update', '--disable-sync', '--mute-audio',
    '--use-angle=swiftshader', '--enable-unsafe-swiftshader', '--disable-dev-shm-usage',
];
const TIMEOUT = 60000;

export const pause = (milliseconds) => new Promise((resolve) => setTimeout(resolve, milliseconds));

export class Browser {
    #asked = new Map();
    #listeners = [];
    #rest = '';
    #last = 0;

    constructor(program = 'chromium') {
        this.profile = mkdtempSync(join(tmpdir(), 'terra-web-'));
        // As root Chromium has no sandbox; it loads one page, of ours.
        const more = process.getuid() === 0 ? ['--no-sandbox'] : [];
        const flags = [...FLAGS, ...more, `--user-data-dir=${this.profile}`, 'about:blank'];
        this.child = spawn(program, flags, { stdio: ['ignore', 'ignore', 'ignore', 'pipe', 'pipe'], detached: true });
        this.ended = new Promise((resolve) => this.child.once('exit', resolve));
        this.child.once('error', (error) => this.#fail(error));
        this.ended.then(() => this.#fail(new Error('the browser ended')));
        this.child.stdio[4].setEncoding('utf8').on('data', (text) => this.#take(text));
    }

    #fail(error) {
        for (const { reject } of this.#asked.values()) {
            reject(error);
        }
        this.#asked.clear();
    }

    #take(text) {
        const parts = (this.#rest + text).split('\0');
        this.#rest = parts.pop();
        for (const message of parts.map((part) => JSON.parse(part))) {
            if (message.id === undefined) {
                this.#listeners.forEach((listener) => listener(message));
                continue;
            }
            const asked = this.#asked.get(message.id);
            this.#asked.delete(message.id);
            if (message.error) {
                asked?.reject(new Error(`${asked.method}: ${message.error.message}`));
            } else {
                asked?.resolve(message.result);
            }
        }
    }

    listen(listener) {
        this.#listeners.push(listener);
    }

    send(method, params = {}, sessionId = undefined) {
        const id = ++this.#last;
        return new Promise((resolve, reject) => {
            const timer = setTimeout(() => reject(new Error(`${method}: no answer`)), TIMEOUT);
            const end = (how) => (value) => {
                clearTimeout(timer);
                how(value);
            };
            this.#asked.set(id, { method, resolve: end(resolve), reject: end(reject) });
            this.child.stdio[3].write(`${JSON.stringify({ id, method, params, sessionId })}\0`);
        });
    }

    /** Opens a tab, whose errors are collected. */
    async tab() {
        const { targetId } = await this.send('Target.createTarget', { url: 'about:blank' });
        const { sessionId } = await this.send('Target.attachToTarget', { targetId, flatten: true });
        const tab = new Tab(this, sessionId);
        await tab.begin();
        return tab;
    }

    /** Ends the browser and all that it started, and removes its profile. */
    async close() {
        await Promise.race([this.send('Browser.close').catch(() => {}), pause(3000)]);
        await Promise.race([this.ended, pause(3000)]);
        try {
            process.kill(-this.child.pid, 'SIGKILL');
        } catch {
            // It has ended.
        }
        rmSync(this.profile, { recursive: true, force: true, maxRetries: 5, retryDelay: 200 });
    }
}

export class Tab {
    errors = [];

    constructor(browser, session) {
        this.browser = browser;
        this.session = session;
    }

    send(method, params) {
        return this.browser.send(method, params, this.session);
    }

    async begin() {
        this.browser.listen(({ sessionId, method, params }) => {
            if (sessionId !== this.session) {
                return;
            }
            if (method === 'Runtime.exceptionThrown') {
                this.errors.push(params.exceptionDetails.exception?.description ?? params.exceptionDetails.text);
            } else if (method === 'Runtime.consoleAPICalled' && ['error', 'warning', 'assert'].includes(params.type)) {
                this.errors.push(params.args.map((it) => it.value ?? it.description).join(' '));
            } else if (method === 'Log.entryAdded' && params.entry.level === 'error') {
                this.errors.push(`${params.entry.text} ${params.entry.url ?? ''}`);
            }
        });
        await Promise.all(['Page.enable', 'Runtime.enable', 'Log.enable'].map((it) => this.send(it)));
    }

    async evaluate(expression) {
        const { result, exceptionDetails } = await this.send('Runtime.evaluate', {
            expression, awaitPromise: true, returnByValue: true,
        });
        if (exceptionDetails) {
            throw new Error(exceptionDetails.exception?.description ?? exceptionDetails.text);
        }
        return result.value;
    }

    /** Waits until an expression is true of the page. */
    async until(expression, what = expression) {
        for (const end = Date.now() + TIMEOUT; Date.now() < end; await pause(20)) {
            if (await this.evaluate(expression)) {
                return;
            }
        }
        throw new Error(`it didn’t come to pass: ${what}`);
    }

    size(width, height, mobile = false) {
        return this.send('Emulation.setDeviceMetricsOverride', { width, height, deviceScaleFactor: 1, mobile });
    }

    mouse(type, x, y, more = {}) {
        return this.send('Input.dispatchMouseEvent', { type, x, y, ...more });
    }

    async click(x, y) {
        await this.mouse('mousePressed', x, y, { button: 'left', buttons: 1, clickCount: 1 });
        await this.mouse('mouseReleased', x, y, { button: 'left', clickCount: 1 });
    }

    touch(type, ...touchPoints) {
        return this.send('Input.dispatchTouchEvent', { type, touchPoints });
    }

    async tap(x, y) {
        await this.touch('touchStart', { x, y });
        await this.touch('touchEnd');
    }

    async press(key, code, held = 0) {
        const text = key.length === 1 ? { text: key } : {};
        await this.send('Input.dispatchKeyEvent', { type: text.text ? 'keyDown' : 'rawKeyDown', key, code, ...text });
        await pause(held);
        await this.send('Input.dispatchKeyEvent', { type: 'keyUp', key, code });
    }

    /** The picture of the page, as the bytes of a PNG. */
    async picture() {
        return Buffer.from((await this.send('Page.captureScreenshot', { format: 'png' })).data, 'base64');
    }
}
