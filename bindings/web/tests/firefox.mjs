// Drives a headless Firefox over a socket, by its Marionette protocol. It needs no package.
import { spawn } from "node:child_process";
import { existsSync, mkdtempSync, readFileSync, rmSync, writeFileSync } from "node:fs";
import { connect } from "node:net";
import { tmpdir } from "node:os";
import { join } from "node:path";

const NAMES = ["firefox-esr", "firefox"];
const PATIENCE = 60_000;
const PAUSE = 50;

// Which port is free, the browser finds and writes into its profile. Nothing is asked for over a network.
const PREFERENCES = {
    "marionette.port": 0,
    "app.update.enabled": false,
    "browser.shell.checkDefaultBrowser": false,
    "datareporting.policy.dataSubmissionEnabled": false,
    "network.captive-portal-service.enabled": false,
    "network.connectivity-service.enabled": false,
    "services.settings.server": "data:,",
};

const pause = () => new Promise((resolve) => setTimeout(resolve, PAUSE));

/** A running Firefox with one page. */
export class Firefox {
    #process;
    #profile = mkdtempSync(join(tmpdir(), "starlark-web-"));
    #socket;
    #next = 1;
    #waiting = new Map();
    #rest = Buffer.alloc(0);

    /** Starts the first Firefox on the path, or returns null where there is none. */
    static async start() {
        const names = process.env.FIREFOX ? [process.env.FIREFOX] : NAMES;
        for (const name of names) {
            const firefox = new Firefox();
            if (await firefox.#spawn(name)) {
                await firefox.#connect();
                await firefox.send("WebDriver:NewSession", {});
                return firefox;
            }
        }
        return null;
    }

    #spawn(name) {
        const lines = Object.entries(PREFERENCES).map((pair) => `user_pref(${pair.map((it) => JSON.stringify(it)).join(", ")});\n`);
        writeFileSync(join(this.#profile, "user.js"), lines.join(""));
        const child = spawn(name, ["--headless", "--marionette", "--remote-allow-system-access", "--no-remote", "--profile", this.#profile], {
            stdio: "ignore",
            env: { ...process.env, HOME: this.#profile },
        });
        this.#process = child;
        return new Promise((resolve) => {
            child.once("error", () => {
                this.#remove();
                resolve(false);
            });
            child.once("spawn", () => resolve(true));
        });
    }

    async #connect() {
        const file = join(this.#profile, "MarionetteActivePort");
        for (const begin = performance.now(); !existsSync(file) || readFileSync(file, "utf8") === ""; await pause()) {
            if (performance.now() - begin > PATIENCE || this.#process.exitCode !== null) {
                this.#process.kill();
                throw new Error("Firefox has not started");
            }
        }
        this.#socket = connect(Number(readFileSync(file, "utf8")), "127.0.0.1");
        await new Promise((resolve, reject) => this.#socket.once("connect", resolve).once("error", reject));
        this.#socket.on("data", (bytes) => this.#read(bytes));
        this.#socket.on("error", () => {});
    }

    // A message is its length in bytes, a colon, and JSON.
    #read(bytes) {
        this.#rest = Buffer.concat([this.#rest, bytes]);
        for (let colon = this.#rest.indexOf(":"); colon > 0; colon = this.#rest.indexOf(":")) {
            const end = colon + 1 + Number(this.#rest.subarray(0, colon).toString());
            if (this.#rest.length < end) {
                return;
            }
            const message = JSON.parse(this.#rest.subarray(colon + 1, end).toString());
            this.#rest = this.#rest.subarray(end);
            if (Array.isArray(message)) {
                this.#take(message);
            }
        }
    }

    #take([, id, error, result]) {
        const { method, resolve, reject } = this.#waiting.get(id);
        this.#waiting.delete(id);
        if (error) {
            reject(new Error(`${method}: ${error.message}`));
        } else {
            resolve(result);
        }
    }

    /** Sends a command, and returns its result. */
    send(method, params) {
        const id = this.#next++;
        const message = JSON.stringify([0, id, method, params]);
        this.#socket.write(`${Buffer.byteLength(message)}:${message}`);
        return new Promise((resolve, reject) => this.#waiting.set(id, { method, resolve, reject }));
    }

    /** Goes to a page, and waits until it is loaded. */
    go(url) {
        return this.send("WebDriver:Navigate", { url });
    }

    /** Calls a function in the page with arguments of JSON, and returns its result. */
    async call(action, ...given) {
        const script = `return (${action})(...arguments);`;
        return (await this.send("WebDriver:ExecuteScript", { script, args: given, sandbox: null })).value;
    }

    /** Waits until a function returns what is true in the page. */
    async until(action, ...given) {
        for (const begin = performance.now(); performance.now() - begin < PATIENCE; await pause()) {
            if (await this.call(action, ...given)) {
                return;
            }
        }
        throw new Error(`waited for ${action} in vain`);
    }

    /** Types a text into the element of a selector. */
    async type(selector, text) {
        const { value } = await this.send("WebDriver:FindElement", { using: "css selector", value: selector });
        await this.send("WebDriver:ElementSendKeys", { id: Object.values(value)[0], text });
    }

    /** A picture of the page as PNG. */
    async picture() {
        const { value } = await this.send("WebDriver:TakeScreenshot", { full: false });
        return Buffer.from(value, "base64");
    }

    /** Lets the page see a preference for light or dark. */
    async prefer(scheme) {
        await this.send("Marionette:SetContext", { value: "chrome" });
        const script = 'Services.prefs.setIntPref("layout.css.prefers-color-scheme.content-override", arguments[0]);';
        await this.send("WebDriver:ExecuteScript", { script, args: [scheme === "dark" ? 0 : 1] });
        await this.send("Marionette:SetContext", { value: "content" });
    }

    /** Ends the browser. */
    async close() {
        const ended = new Promise((resolve) => this.#process.once("exit", resolve));
        this.send("Marionette:Quit", { flags: ["eForceQuit"] }).catch(() => {});
        await ended;
        this.#socket.destroy();
        this.#remove();
    }

    #remove() {
        rmSync(this.#profile, { recursive: true, force: true, maxRetries: 5, retryDelay: 100 });
    }
}
