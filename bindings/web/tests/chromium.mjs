// Drives a headless Chromium over a pipe, by the DevTools protocol. It needs no package.
import { spawn } from "node:child_process";
import { mkdtempSync, rmSync } from "node:fs";
import { tmpdir } from "node:os";
import { join } from "node:path";

const NAMES = ["chromium", "chromium-browser", "google-chrome", "chrome"];
const FLAGS = [
    "--headless=new",
    "--remote-debugging-pipe",
    "--no-first-run",
    "--no-default-browser-check",
    "--disable-background-networking",
    "--disable-component-update",
    "--disable-gpu",
    "--disable-frame-rate-limit",
];

// A key's number, by its name.
const KEY_CODES = {
    Backspace: 8,
    Tab: 9,
    Enter: 13,
    End: 35,
    Home: 36,
    ArrowLeft: 37,
    ArrowUp: 38,
    ArrowRight: 39,
    ArrowDown: 40,
    Delete: 46,
    PageUp: 33,
    PageDown: 34,
    Process: 229,
};
const PATIENCE = 20_000;

/** The modifiers of a key press. */
export const CONTROL = 2;
export const SHIFT = 8;

/** A running Chromium. */
export class Chromium {
    #process;
    #profile;
    #next = 1;
    #waiting = new Map();
    #listeners = new Map();
    #rest = Buffer.alloc(0);

    /** Starts the first Chromium on the path, or returns null where there is none. */
    static async start() {
        const names = process.env.CHROMIUM ? [process.env.CHROMIUM] : NAMES;
        for (const name of names) {
            const chromium = new Chromium();
            if (await chromium.#spawn(name)) {
                return chromium;
            }
        }
        return null;
    }

    #spawn(name) {
        this.#profile = mkdtempSync(join(tmpdir(), "starlark-web-"));
        // A sandbox needs a user of its own.
        const flags = process.getuid() === 0 ? [...FLAGS, "--no-sandbox"] : FLAGS;
        const child = spawn(name, [...flags, `--user-data-dir=${this.#profile}`], {
            stdio: ["ignore", "ignore", "ignore", "pipe", "pipe"],
        });
        this.#process = child;
        child.stdio[3].on("error", () => {});
        child.stdio[4].on("data", (bytes) => this.#read(bytes));
        return new Promise((resolve) => {
            child.once("error", () => {
                this.#remove();
                resolve(false);
            });
            child.once("spawn", () => resolve(true));
            child.once("exit", () => this.#fail(new Error("Chromium has ended")));
        });
    }

    #remove() {
        rmSync(this.#profile, { recursive: true, force: true, maxRetries: 5, retryDelay: 100 });
    }

    #fail(error) {
        for (const { reject } of this.#waiting.values()) {
            reject(error);
        }
        this.#waiting.clear();
    }

    #read(bytes) {
        this.#rest = Buffer.concat([this.#rest, bytes]);
        for (let end = this.#rest.indexOf(0); end >= 0; end = this.#rest.indexOf(0)) {
            const message = JSON.parse(this.#rest.subarray(0, end).toString());
            this.#rest = this.#rest.subarray(end + 1);
            this.#take(message);
        }
    }

    #take({ id, result, error, method, params, sessionId }) {
        const waiting = this.#waiting.get(id);
        if (waiting) {
            this.#waiting.delete(id);
            if (error) {
                waiting.reject(new Error(`${waiting.method}: ${error.message}`));
            } else {
                waiting.resolve(result);
            }
        }
        for (const listener of this.#listeners.get(`${sessionId} ${method}`) ?? []) {
            listener(params);
        }
    }

    /** Sends a command, and returns its result. */
    send(method, params = {}, sessionId = undefined) {
        const id = this.#next++;
        this.#process.stdio[3].write(`${JSON.stringify({ id, method, params, sessionId })}\0`);
        return new Promise((resolve, reject) => this.#waiting.set(id, { method, resolve, reject }));
    }

    /** Calls a function at each event of a session. */
    on(sessionId, method, listener) {
        const key = `${sessionId} ${method}`;
        this.#listeners.set(key, [...(this.#listeners.get(key) ?? []), listener]);
    }

    /** Opens a page. */
    async open(url) {
        const { targetId } = await this.send("Target.createTarget", { url: "about:blank" });
        const { sessionId } = await this.send("Target.attachToTarget", { targetId, flatten: true });
        const page = new Page(this, sessionId);
        await page.send("Page.enable");
        await page.send("Runtime.enable");
        if (url) {
            await page.go(url);
        }
        return page;
    }

    /** Ends the browser. */
    async close() {
        const ended = new Promise((resolve) => this.#process.once("exit", resolve));
        this.send("Browser.close").catch(() => {});
        await ended;
        this.#remove();
    }
}

/** A page of a running Chromium. */
export class Page {
    #chromium;
    #session;
    /** What the page threw and did not catch, and the requests that it made. */
    errors = [];
    requests = [];

    constructor(chromium, session) {
        this.#chromium = chromium;
        this.#session = session;
        chromium.on(session, "Runtime.exceptionThrown", ({ exceptionDetails }) => {
            this.errors.push(exceptionDetails.exception?.description ?? exceptionDetails.text);
        });
        chromium.on(session, "Network.requestWillBeSent", ({ request }) => this.requests.push(request.url));
    }

    send(method, params) {
        return this.#chromium.send(method, params, this.#session);
    }

    /** Goes to a page, and waits until it is loaded. */
    async go(url) {
        const loaded = new Promise((resolve) => this.#chromium.on(this.#session, "Page.loadEventFired", resolve));
        await this.send("Page.navigate", { url });
        await loaded;
    }

    /** Calls a function in the page with arguments of JSON, and returns its result. */
    async call(action, ...given) {
        const expression = `(${action})(...${JSON.stringify(given)})`;
        const { result, exceptionDetails } = await this.send("Runtime.evaluate", {
            expression,
            awaitPromise: true,
            returnByValue: true,
        });
        if (exceptionDetails) {
            throw new Error(exceptionDetails.exception?.description ?? exceptionDetails.text);
        }
        return result.value;
    }

    /** Presses and releases a key, which has a text if it is a character. */
    async press(key, { text = undefined, modifiers = 0, commands = [] } = {}) {
        const code = KEY_CODES[key] ?? (/^[a-z0-9]$/i.test(key) ? key.toUpperCase().charCodeAt(0) : 0);
        const told = { key, windowsVirtualKeyCode: code, modifiers };
        await this.send("Input.dispatchKeyEvent", { type: "keyDown", ...told, text, commands });
        await this.send("Input.dispatchKeyEvent", { type: "keyUp", ...told });
    }

    /** Types a text, character by character. */
    async type(text) {
        for (const character of text) {
            if (character === "\n") {
                await this.press("Enter", { text: "\r" });
            } else {
                await this.press(character, { text: character });
            }
        }
    }

    /** Clicks in the middle of the element of a selector. */
    async click(selector) {
        const [x, y] = await this.call((wanted) => {
            const { left, top, width, height } = document.querySelector(wanted).getBoundingClientRect();
            return [left + width / 2, top + height / 2];
        }, selector);
        for (const type of ["mousePressed", "mouseReleased"]) {
            await this.send("Input.dispatchMouseEvent", { type, x, y, button: "left", clickCount: 1 });
        }
    }

    /** Waits until a function returns what is true in the page. */
    async until(action, ...given) {
        for (const begin = performance.now(); performance.now() - begin < PATIENCE; ) {
            if (await this.call(action, ...given)) {
                return;
            }
            await new Promise((resolve) => setTimeout(resolve, 20));
        }
        throw new Error(`waited for ${action} in vain`);
    }

    /** Writes a picture of the page as PNG. */
    async picture() {
        const { data } = await this.send("Page.captureScreenshot", { format: "png" });
        return Buffer.from(data, "base64");
    }
}
