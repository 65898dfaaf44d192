// Tests of the module and of the page in headless Firefox. STARLARK_PAGE names the page, STARLARK_WEB the
// package. With PICTURES, a folder, pictures of the page are left there.
import assert from "node:assert/strict";
import { mkdirSync, readFileSync, writeFileSync } from "node:fs";
import { join } from "node:path";
import { pathToFileURL } from "node:url";
import { Firefox } from "./firefox.mjs";
import { plainTexts, recoveredTexts } from "./stored.mjs";

const PAGE = pathToFileURL(process.env.STARLARK_PAGE).href;
const FOLDER = pathToFileURL(`${process.env.STARLARK_WEB}/`);
const PICTURES = process.env.PICTURES;
const TEXTS_A_CALL = 500;
const { lexRecovering } = await import(new URL("starlark_lexer.js", FOLDER));

const shownCount = () => Number.parseInt(document.getElementById("count").textContent.replaceAll(",", ""), 10);

async function picture(firefox, name) {
    if (PICTURES) {
        mkdirSync(PICTURES, { recursive: true });
        writeFileSync(join(PICTURES, `firefox-${name}.png`), await firefox.picture());
    }
}

const TESTS = {
    /** The stored texts through the module in the browser. */
    async storedTexts(firefox) {
        await firefox.go("about:blank");
        const sources = [new URL("lexer.js", FOLDER), new URL("lines.mjs", import.meta.url), new URL("starlark_lex.wasm", FOLDER)];
        const isReady = await firefox.call(
            async (lexer, lines, wasm) => {
                const [lexing, printing] = await Promise.all(
                    [lexer, lines].map((source) => import(`data:text/javascript;base64,${source}`)),
                );
                const bytes = (digits) => Uint8Array.from(atob(digits), (letter) => letter.charCodeAt(0));
                const made = new lexing.Lexer(bytes(wasm));
                window.linesOf = (texts, name) =>
                    texts.map((text) => printing.linesOfText((source) => made[name](source), bytes(text)));
                return true;
            },
            ...sources.map((file) => readFileSync(file).toString("base64")),
        );
        assert.ok(isReady);
        const plain = plainTexts().map(({ source, head, lines }) => [source, head.endsWith("not UTF-8\n") ? "input is not UTF-8\n" : lines]);
        const recovered = recoveredTexts().map(({ source, lines }) => [source, lines]);
        await compareTexts(firefox, "lex", plain);
        await compareTexts(firefox, "lexRecovering", recovered);
        return `${plain.length + recovered.length} stored texts`;
    },

    /** The page opens from its file, and shows the tokens of an example. */
    async opens(firefox) {
        await firefox.prefer("light");
        await firefox.go(PAGE);
        await firefox.until(() => document.querySelectorAll("#tokens .row").length > 0);
        const keywords = await firefox.call(() =>
            Array.from(CSS.highlights.get("keyword"), ({ startContainer, startOffset, endOffset }) =>
                startContainer.textContent.slice(startOffset, endOffset),
            ),
        );
        assert.deepEqual(keywords, ["load"]);
        await picture(firefox, "light");
        return "with colours";
    },

    /** What is typed is lexed, and a fault appears. */
    async typing(firefox) {
        await firefox.call(() => {
            document.getElementById("text").focus();
            document.execCommand("selectAll");
            document.execCommand("delete");
        });
        await firefox.type("#text", "x = 'é' + 01");
        await firefox.until(() => document.querySelectorAll("#fault-list button").length === 1);
        assert.equal(await firefox.call(shownCount), lexRecovering("x = 'é' + 01").tokens.length);
        const fault = await firefox.call(() => document.querySelector("#fault-list button").textContent);
        assert.equal(fault, "SL0081:11integer cannot have leading 0, got `01`");
        return "is lexed";
    },

    /** Dark follows the system. */
    async dark(firefox) {
        const ground = () => getComputedStyle(document.body).backgroundColor;
        const light = await firefox.call(ground);
        await firefox.prefer("dark");
        await firefox.until((before) => getComputedStyle(document.body).backgroundColor !== before, light);
        await picture(firefox, "dark");
        return `${await firefox.call(ground)} in place of ${light}`;
    },
};

async function compareTexts(firefox, name, texts) {
    for (let at = 0; at < texts.length; at += TEXTS_A_CALL) {
        const some = texts.slice(at, at + TEXTS_A_CALL);
        const digits = some.map(([source]) => source.toString("base64"));
        const found = await firefox.call((given, call) => window.linesOf(given, call), digits, name);
        some.forEach(([source, wanted], index) =>
            assert.equal(found[index].trimEnd(), wanted.trimEnd(), JSON.stringify(source.toString())),
        );
    }
}

const firefox = await Firefox.start();
if (firefox) {
    try {
        for (const [name, run] of Object.entries(TESTS)) {
            console.log(`Firefox, ${name}: ${await run(firefox)}`);
        }
    } finally {
        await firefox.close();
    }
} else {
    console.log("the tests in Firefox were left out: there is no Firefox");
}
