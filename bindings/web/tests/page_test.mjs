// Tests of the page and of the module in headless Chromium. STARLARK_PAGE names the page, STARLARK_WEB
// the package. With PICTURES, a folder, pictures of the page are left there. Arguments name tests.
import assert from "node:assert/strict";
import { mkdirSync, mkdtempSync, readFileSync, rmSync, writeFileSync } from "node:fs";
import { tmpdir } from "node:os";
import { join } from "node:path";
import { pathToFileURL } from "node:url";
import { CONTROL, Chromium, SHIFT } from "./chromium.mjs";
import { linesOfText } from "./lines.mjs";
import { plainTexts, recoveredTexts } from "./stored.mjs";

const PAGE = pathToFileURL(process.env.STARLARK_PAGE).href;
const FOLDER = pathToFileURL(`${process.env.STARLARK_WEB}/`);
const PICTURES = process.env.PICTURES;
const WIDE = { width: 1280, height: 800, deviceScaleFactor: 1, mobile: false };
const NARROW = { width: 390, height: 844, deviceScaleFactor: 2, mobile: true };
const KEYS = 20;
const MOST_FAULTS = 100;
// Milliseconds for a keystroke. On a quiet machine it takes a third of that.
const MOST_TIME = 45;
const { lexRecovering } = await import(new URL("starlark_lexer.js", FOLDER));

// What the page shows.

const shownText = () =>
    Array.from(document.querySelectorAll("#text > div"), (block) => block.textContent)
        .join("")
        .slice(0, -1);
const shownFaults = () =>
    Array.from(document.querySelectorAll("#fault-list button"), (row) =>
        Array.from(row.children, (part) => part.textContent).join(" "),
    );
const shownNotes = () => Array.from(document.querySelectorAll(".note"), (note) => note.textContent);
const shownCount = () => Number.parseInt(document.getElementById("count").textContent.replaceAll(",", ""), 10);
const shownRows = () =>
    Array.from(document.querySelectorAll("#tokens .row"), (row) =>
        Array.from(row.children, (part) => part.textContent).join(" ").trim(),
    );

/** The text between two offsets of a highlight's ranges, for each of its ranges. */
const highlighted = (name) =>
    Array.from(CSS.highlights.get(name), ({ startContainer, startOffset, endContainer, endOffset }) => {
        const range = document.createRange();
        range.setStart(startContainer, startOffset);
        range.setEnd(endContainer, endOffset);
        return range.toString();
    });

async function picture(page, name) {
    if (PICTURES) {
        mkdirSync(PICTURES, { recursive: true });
        writeFileSync(join(PICTURES, `${name}.png`), await page.picture());
    }
}

/** Gives the page what tests do in it. */
function equip() {
    const point = (offset) => {
        for (const { firstChild } of document.querySelectorAll("#text > div")) {
            if (offset < firstChild.length) {
                return [firstChild, offset];
            }
            offset -= firstChild.length;
        }
        throw new RangeError("no such offset");
    };
    globalThis.select = (start, end) => {
        document.getElementById("text").focus();
        document.getSelection().setBaseAndExtent(...point(start), ...point(end));
    };
    globalThis.painted = () => new Promise((resolve) => requestAnimationFrame(() => setTimeout(resolve)));
    globalThis.choose = (id, value) => {
        document.getElementById(id).value = value;
        document.getElementById(id).dispatchEvent(new Event("change"));
    };
}

async function opened(chromium, metrics = WIDE, url = PAGE) {
    const page = await chromium.open();
    await page.send("Network.enable");
    await page.send("Performance.enable", { timeDomain: "threadTicks" });
    await page.send("Emulation.setDeviceMetricsOverride", metrics);
    await page.go(url);
    await page.until(() => document.querySelectorAll("#tokens .row").length > 0);
    await page.call(equip);
    return page;
}

/** Puts a text in the place of all that the editor has, by the keyboard. */
async function write(page, text) {
    await page.call(() => document.getElementById("text").focus());
    await page.press("a", { modifiers: CONTROL, commands: ["selectAll"] });
    await page.press("Delete");
    await page.type(text);
}

/** Undoes some steps, up to where the text is another one. */
async function undoTo(page, text) {
    for (let undone = 0; undone < 8 && (await page.call(shownText)) !== text; undone++) {
        await page.press("z", { modifiers: CONTROL });
    }
    await compare(page, text);
}

/** Compares what the page shows with what the module finds in Node. */
async function compare(page, text) {
    await page.call(() => painted());
    assert.equal(await page.call(shownText), text);
    const { tokens, faults } = lexRecovering(text);
    assert.equal(await page.call(shownCount), tokens.length, JSON.stringify(text));
    const wanted = faults.slice(0, MOST_FAULTS).map(({ code, begin, message }) => {
        const front = text.slice(0, begin).split("\n");
        return `${code} ${front.length}:${front.at(-1).length + 1} ${message.replace("Parse error: ", "")}`;
    });
    assert.deepEqual(await page.call(shownFaults), wanted);
}

const TESTS = {
    /** The stored texts through the module in the browser. */
    async storedTexts(chromium) {
        const page = await chromium.open("data:text/html,<title>stored texts</title>");
        const lexer = readFileSync(new URL("lexer.js", FOLDER), "utf8");
        const lines = readFileSync(new URL("lines.mjs", import.meta.url), "utf8");
        const wasm = readFileSync(new URL("starlark_lex.wasm", FOLDER)).toString("base64");
        await page.call(
            async (...sources) => {
                const [lexing, printing] = await Promise.all(
                    sources.slice(0, 2).map((source) => import(`data:text/javascript;base64,${source}`)),
                );
                const bytes = (digits) => Uint8Array.from(atob(digits), (letter) => letter.charCodeAt(0));
                const made = new lexing.Lexer(bytes(sources[2]));
                globalThis.lines = (texts, name) =>
                    texts.map((text) => printing.linesOfText((source) => made[name](source), bytes(text)));
            },
            ...[lexer, lines].map((source) => Buffer.from(source).toString("base64")),
            wasm,
        );
        const sets = [
            ["lex", plainTexts().map(({ source, head, lines: printed }) => [source, head.endsWith("not UTF-8\n") ? "input is not UTF-8\n" : printed])],
            ["lexRecovering", recoveredTexts().map(({ source, lines: printed }) => [source, printed])],
        ];
        let compared = 0;
        for (const [name, texts] of sets) {
            for (let at = 0; at < texts.length; at += 500) {
                const some = texts.slice(at, at + 500);
                const digits = some.map(([source]) => source.toString("base64"));
                const found = await page.call((given, call) => lines(given, call), digits, name);
                some.forEach(([source, wanted], index) =>
                    assert.equal(found[index].trimEnd(), wanted.trimEnd(), JSON.stringify(source.toString())),
                );
                compared += some.length;
            }
        }
        assert.equal(linesOfText(lexRecovering, Buffer.from("x")), "0-1 1:1-2 Identifier x\n1-1 1:2 Newline\n");
        return `${compared} stored texts`;
    },

    /** A newcomer sees the tokens of an example within a second, of the processor's time. */
    async opens(chromium) {
        const page = await opened(chromium);
        const time = await taskTime(page);
        assert.ok(time < 1000, `${time} ms`);
        assert.deepEqual((await page.call(shownRows)).slice(0, 3), [
            "0–4 Load",
            "4–5 OpeningRound",
            '5–24 String "//tools:rules.bzl"',
        ]);
        assert.deepEqual(await page.call(highlighted, "comment"), ["# Each call is a target."]);
        assert.deepEqual(await page.call(highlighted, "keyword"), ["load"]);
        assert.deepEqual(page.errors, []);
        assert.deepEqual(page.requests.filter((url) => !url.startsWith("data:")), [PAGE]);
        await picture(page, "light");
        return `tokens after ${Math.round(time)} ms`;
    },

    /** A fault appears with its message, and goes. */
    async faults(chromium) {
        const page = await opened(chromium);
        await write(page, "x = 01");
        await page.call(() => painted());
        assert.deepEqual(await page.call(shownFaults), ["SL008 1:5 integer cannot have leading 0, got `01`"]);
        assert.deepEqual(await page.call(shownNotes), ["SL008 integer cannot have leading 0, got `01`"]);
        assert.deepEqual(await page.call(highlighted, "fault"), ["01"]);
        await picture(page, "fault");
        await page.press("Backspace");
        await page.call(() => painted());
        assert.deepEqual(await page.call(shownFaults), []);
        assert.deepEqual(await page.call(shownNotes), []);
        assert.deepEqual(await page.call(highlighted, "fault"), []);
        await compare(page, "x = 0");
        await write(page, "a");
        await page.send("Input.insertText", { text: "\t" });
        await page.call(() => painted());
        assert.deepEqual(await page.call(shownFaults), ["SL003 1:2 tabs are not allowed"]);
        assert.deepEqual(await page.call(highlighted, "fault"), ["\t"]);
        await write(page, "");
        await page.send("Input.insertText", { text: "if x:\n#\ta\n\ty = 1\n" });
        await page.call(() => painted());
        assert.deepEqual(await page.call(shownFaults), ["SL003 1:6 tabs are not allowed"]);
        assert.deepEqual(await page.call(shownNotes), ["SL003 tabs are not allowed"]);
        assert.equal(await page.call(() => document.querySelector("#numbers .at-fault").textContent), "3");
        return "appear and go";
    },

    /** Keys that edit do what they say. */
    async typing(chromium) {
        const page = await opened(chromium);
        await write(page, "def f(x):\nreturn x");
        await compare(page, "def f(x):\n    return x");
        await page.type("\ny");
        await compare(page, "def f(x):\n    return x\n    y");
        await page.press("z", { modifiers: CONTROL });
        await page.press("z", { modifiers: CONTROL });
        await compare(page, "def f(x):\n    return x");
        await page.press("z", { modifiers: CONTROL | SHIFT });
        await compare(page, "def f(x):\n    return x\n    ");
        await page.press("Home", { commands: ["moveToBeginningOfLine"] });
        await page.press("Backspace");
        await compare(page, "def f(x):\n    return x    ");
        await page.press("Delete");
        await compare(page, "def f(x):\n    return x   ");
        await write(page, "'👩‍👩‍👦é汉'");
        for (const rest of ["'👩‍👩‍👦é汉", "'👩‍👩‍👦é", "'👩‍👩‍👦", "'", ""]) {
            await page.press("Backspace");
            await compare(page, rest);
        }
        await page.press("Backspace");
        await page.press("Delete");
        await compare(page, "");
        await page.send("Input.insertText", { text: "a\nb\r\nc" });
        await compare(page, "a\nb\r\nc");
        return "each key";
    },

    /** What an input method composes comes into the text, and can be undone. */
    async composition(chromium) {
        const page = await opened(chromium);
        await write(page, "a = ''\nb");
        await page.call(() => select(5, 5));
        for (const text of ["に", "にほ", "にほん"]) {
            await page.send("Input.imeSetComposition", { text, selectionStart: text.length, selectionEnd: text.length });
            await compare(page, `a = '${text}'\nb`);
        }
        await page.send("Input.insertText", { text: "日本" });
        await compare(page, "a = '日本'\nb");
        await page.type("x");
        await compare(page, "a = '日本x'\nb");
        await undoTo(page, "a = ''\nb");
        await page.call(() => select(0, 8));
        await page.send("Input.imeSetComposition", { text: "か", selectionStart: 1, selectionEnd: 1 });
        await page.send("Input.insertText", { text: "蚊" });
        await compare(page, "蚊");
        const lines = "x = 1\n".repeat(200);
        await page.send("Input.insertText", { text: lines });
        await page.call((end) => select(3, end), lines.length - 2);
        await page.press("Process");
        await page.send("Input.imeSetComposition", { text: "に", selectionStart: 1, selectionEnd: 1 });
        await page.send("Input.imeSetComposition", { text: "にほ", selectionStart: 2, selectionEnd: 2 });
        await page.send("Input.insertText", { text: "日" });
        await compare(page, "蚊x 日 1\n");
        await undoTo(page, `蚊${lines}`);
        return "is taken";
    },

    /** Random edits over many blocks of lines, compared with the same on a string. */
    async randomEdits(chromium) {
        const page = await opened(chromium);
        const lines = Array.from({ length: 400 }, (_, number) => `name_${number} = [${number}, 'é🔬'] # c`);
        let text = lines.join("\n");
        await write(page, "");
        await page.send("Input.insertText", { text });
        let seed = 1;
        const random = (below) => (seed = (seed * 48271) % 2147483647) % below;
        for (let edit = 0; edit < 200; edit++) {
            const isWide = edit % 10 === 0;
            const start = random(text.length + 1);
            const end = Math.min(text.length, start + random(isWide ? 9000 : 3));
            const inserted = ["", "x", "'", "\n", "0", " ", "\n\n\n", `${"y = 1\n".repeat(isWide ? 150 : 1)}`][random(8)];
            const isSplit = (at) => /[\udc00-\udfff]/.test(text[at] ?? "") && /[\ud800-\udbff]/.test(text[at - 1] ?? "");
            if (isSplit(start) || isSplit(end)) {
                continue;
            }
            await page.call((from, to) => select(from, to), start, end);
            if (inserted) {
                await page.send("Input.insertText", { text: inserted });
                text = text.slice(0, start) + inserted + text.slice(end);
            } else if (start < end) {
                await page.press("Delete");
                text = text.slice(0, start) + text.slice(end);
            }
            await compare(page, text);
        }
        for (let undone = 0; undone < 300; undone++) {
            await page.press("z", { modifiers: CONTROL });
        }
        await compare(page, "load(\"//tools:rules.bzl\", \"cc_library\")\n\n# Each call is a target.\ncc_library(\n    name = \"lexer\",\n    srcs = glob([\"*.cc\"]),\n    deps = [\n        \"//base:text\",\n        \"@absl//strings\",\n    ],\n    visibility = [\"//visibility:public\"],\n)\n");
        return "as on a string, and undone";
    },

    /** Cut and paste over blocks keep each character. */
    async clipboard(chromium) {
        const page = await opened(chromium);
        const text = Array.from({ length: 300 }, (_, number) => `a${number} = '\\t'\r`).join("\n");
        await write(page, "");
        await page.send("Input.insertText", { text });
        const copied = await page.call((start, end) => {
            select(start, end);
            const clipboardData = new DataTransfer();
            const event = new ClipboardEvent("copy", { clipboardData, bubbles: true, cancelable: true });
            document.getElementById("text").dispatchEvent(event);
            return clipboardData.getData("text/plain");
        }, 5, text.length - 5);
        assert.equal(copied, text.slice(5, -5));
        return "copies each character";
    },

    /** A file is opened by dropping it, and by its name. */
    async files(chromium) {
        const folder = mkdtempSync(join(tmpdir(), "starlark-web-"));
        try {
            const page = await opened(chromium);
            const text = "# dropped 🔬\nx = 1\r\ny = 01\n";
            writeFileSync(join(folder, "BUILD"), text);
            writeFileSync(join(folder, "wrong"), Buffer.of(97, 255));
            await drop(page, join(folder, "BUILD"));
            await page.until(() => document.title.startsWith("BUILD"));
            await compare(page, text);
            await drop(page, join(folder, "wrong"));
            await page.until(() => document.getElementById("notice").textContent === "wrong is not UTF-8");
            await compare(page, text);
            return "dropped";
        } finally {
            rmSync(folder, { recursive: true });
        }
    },

    /** A link holds the text. */
    async links(chromium) {
        const page = await opened(chromium);
        const text = "x = 'é🔬' + \"<script>\" # 100 %\n";
        await write(page, text);
        await page.click("#link");
        await page.until(() => location.hash.startsWith("#text="));
        const url = await page.call(() => location.href);
        const other = await opened(chromium, WIDE, url);
        await compare(other, text);
        await other.call(() => (location.hash = "#text=broken"));
        await other.until(() => document.getElementById("notice").textContent.includes("no text"));
        await compare(other, text);
        return `${url.length - PAGE.length} letters for ${text.length} characters`;
    },

    /** All can be done by the keyboard. */
    async keyboard(chromium) {
        const page = await opened(chromium);
        const focused = [];
        for (let step = 0; step < 12; step++) {
            await page.press("Tab");
            focused.push(await page.call(() => document.activeElement.id));
        }
        for (const id of ["open", "example", "link", "theme", "text", "tokens"]) {
            assert.ok(focused.includes(id), `${id} is not reached: ${focused}`);
        }
        await page.call(() => document.getElementById("tokens").focus());
        await page.press("Home");
        for (let step = 0; step < 2; step++) {
            await page.press("ArrowDown");
        }
        const active = await page.call(() => {
            const id = document.getElementById("tokens").getAttribute("aria-activedescendant");
            return document.getElementById(id).textContent;
        });
        assert.equal(active, '5–24String"//tools:rules.bzl"');
        await page.press("Enter", { text: "\r" });
        assert.equal(await page.call(() => document.getSelection().toString()), '"//tools:rules.bzl"');
        await page.press("End");
        await page.until(() => document.getElementById("caret").textContent === "1:40");
        await page.call(() => painted());
        const selected = await page.call(() => document.querySelector("#tokens [aria-selected=true]").textContent);
        assert.equal(selected, "39–40Newline");
        return "each control";
    },

    /** Light and dark follow the system and the choice; letters are told from their ground. */
    async themes(chromium) {
        const page = await opened(chromium);
        const ground = () => getComputedStyle(document.body).backgroundColor;
        const light = await page.call(ground);
        const scheme = (value) => page.send("Emulation.setEmulatedMedia", { features: [{ name: "prefers-color-scheme", value }] });
        await scheme("dark");
        const dark = await page.call(ground);
        assert.notEqual(light, dark);
        await page.call((name) => choose("example", name), "strings and f-strings");
        await page.call(() => painted());
        await picture(page, "dark");
        await page.call(() => choose("theme", "light"));
        assert.equal(await page.call(ground), light);
        return "light and dark";
    },

    /** On a phone nothing is cut off, and the page doesn't scroll sideways. */
    async phone(chromium) {
        const page = await opened(chromium, NARROW);
        await page.call((name) => choose("example", name), "faults");
        await page.call(() => painted());
        const [width, visible] = await page.call(() => [document.scrollingElement.scrollWidth, innerWidth]);
        assert.equal(width, visible);
        await picture(page, "phone");
        await page.call(() => scrollTo(0, document.scrollingElement.scrollHeight));
        await picture(page, "phone-below");
        await page.send("Emulation.setDeviceMetricsOverride", WIDE);
        await page.call(() => painted());
        await picture(page, "faults");
        return `${width} pixels wide`;
    },

    /** How long a keystroke takes. */
    async keystrokes(chromium) {
        const folder = mkdtempSync(join(tmpdir(), "starlark-web-"));
        try {
            const said = [];
            for (const [name, bytes] of [
                ["100 KB", 100_000],
                ["1 MB", 1_000_000],
            ]) {
                const page = await opened(chromium);
                const text = realistic(bytes);
                writeFileSync(join(folder, name), text);
                await drop(page, join(folder, name));
                await page.until((title) => document.title.startsWith(title), name);
                const at = text.indexOf("\n", text.length / 2);
                await page.call((offset) => select(offset, offset), at);
                const time = await keystroke(page);
                const typed = text.slice(0, at) + "a".repeat(KEYS) + text.slice(at);
                const count = lexRecovering(typed).tokens.length.toLocaleString("en");
                await page.until((wanted) => document.getElementById("count").textContent.startsWith(wanted), count);
                await compare(page, typed);
                const lexing = await page.call(() => document.getElementById("time").textContent);
                said.push(`${name} in ${time.toFixed(1)} ms (${lexing})`);
                assert.ok(time < MOST_TIME, said.at(-1));
                await picture(page, name.replace(" ", "-"));
            }
            return said.join(", ");
        } finally {
            rmSync(folder, { recursive: true });
        }
    },
};

async function drop(page, file) {
    const data = { items: [], files: [file], dragOperationsMask: 1 };
    for (const type of ["dragEnter", "dragOver", "drop"]) {
        await page.send("Input.dispatchDragEvent", { type, x: 300, y: 300, data });
    }
}

/** The least processor time of the page's thread for a keystroke, in milliseconds: input, lexing, layout
 * and painting. Other work of the machine only adds to it. */
async function keystroke(page) {
    const times = [];
    for (let key = 0; key < KEYS; key++) {
        const before = await taskTime(page);
        await page.press("a", { text: "a" });
        await new Promise((resolve) => setTimeout(resolve, 100));
        times.push((await taskTime(page)) - before);
    }
    return Math.min(...times);
}

/** The processor time that the page's thread has taken, in milliseconds. */
async function taskTime(page) {
    const { metrics } = await page.send("Performance.getMetrics");
    return 1000 * metrics.find(({ name }) => name === "TaskDuration").value;
}

/** A text of calls and definitions, of about some bytes. */
function realistic(bytes) {
    const parts = [];
    for (let number = 0, length = 0; length < bytes; number++) {
        const part =
            number % 5 === 0
                ? `def rule_${number}(name, deps = [], visibility = None):\n    """Makes a target."""\n` +
                  `    native.rule(name = name + "_lib", deps = deps + ["//base:text_${number}"])\n\n`
                : `cc_library(\n    name = "target_${number}",  # ${number}\n    srcs = glob(["*.cc"]),\n` +
                  `    deps = [":a", "//b/c:d"],\n    size = ${number} * 0x1f,\n)\n\n`;
        parts.push(part);
        length += part.length;
    }
    return parts.join("");
}

async function main() {
    const chromium = await Chromium.start();
    if (!chromium) {
        console.log("the tests of the page were left out: there is no Chromium");
        return;
    }
    const names = process.argv.slice(2);
    try {
        for (const [name, run] of Object.entries(TESTS).filter(([test]) => names.length === 0 || names.includes(test))) {
            console.log(`Chromium, ${name}: ${await run(chromium)}`);
        }
    } finally {
        await chromium.close();
    }
}

await main();
