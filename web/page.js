// The page: the editor, its lexing, and what is shown of it.
import { Lexer } from "../bindings/web/lexer.js";
import { highlight, markOf, markRanges, tokenRanges } from "./colours.js";
import { Editor } from "./editor.js";
import { EXAMPLES } from "./examples.js";
import { fragmentOf, textOf } from "./link.js";
import { TokenList } from "./token_list.js";

const LINE = 20;
// What is in view is told in steps of some lines, so that most scrolling changes nothing.
const STEP = 8;
const MOST_FAULTS = 100;
// A longer text is lexed in two steps: what is shown at once, and all of it after that is painted.
const LONG_TEXT = 200_000;
const SLOW_LEXING = 40;
const PAUSE = 300;
const GROUPS = "keyword number string insert comment operator punctuation layout".split(" ");
const NOT_CODE = new Set(["Comment", "Indent", "Dedent"]);
const THEMES = { auto: "light dark", light: "light", dark: "dark" };

const part = (id) => document.getElementById(id);
const counted = (number, noun) => `${number.toLocaleString("en")} ${noun}${number === 1 ? "" : "s"}`;

let lexer = null;
let lexed = { tokens: { length: 0 }, faults: [] };
let marks = [];
let cuts = [];
// What is shown in colours: tokens, and where the text begins of which they are.
let coloured = { tokens: lexed.tokens, base: 0 };
let isWhole = true;
let inColours = null;
let notes = [];
let shownMargin = "";
// The caret, whether the list has to follow it, and whether it has to be brought into view.
let caret = 0;
let isMoved = false;
let revealed = null;
let frame = 0;
let wait = 0;

const list = new TokenList(part("tokens"), (token) => choose(token.begin, token.end));
const editor = new Editor(part("text"), changed, (offset) => {
    revealed = offset;
    follow(offset);
});
const { text } = editor;

// Lexing

/** Offsets where the text may be cut: a line of code begins there, and no block, bracket or f-string is
 * open. Outside of brackets and f-strings a line end is a `Newline`, and code without indentation is in
 * no block. */
function cutsOf(tokens) {
    const found = [];
    let lineStart = 0;
    for (let index = 0; index < tokens.length; index++) {
        const kind = tokens.kind(index);
        if (kind === "Newline") {
            lineStart = tokens.end(index);
        } else if (tokens.begin(index) === lineStart && !NOT_CODE.has(kind)) {
            found.push(lineStart);
        }
    }
    return found;
}

/** Lexes the text after a change that begins at an offset. */
function changed(begin) {
    clearTimeout(wait);
    if (lexer && text.length <= LONG_TEXT) {
        lexAll();
    } else if (lexer) {
        cuts = cuts.filter((cut) => cut < begin);
        isWhole = false;
        inColours = null;
        const pause = Number(part("time").dataset.milliseconds) > SLOW_LEXING ? PAUSE : 0;
        requestAnimationFrame(() => {
            clearTimeout(wait);
            wait = setTimeout(lexAll, pause);
        });
    }
    show();
}

/** Lexes the lines that are in view, from a cut before them and before the change. Where a token goes
 * on after them, a fault may be found that all of the text doesn't have, so no faults are taken. */
function lexShown({ from, to }) {
    const base = cuts.findLast((cut) => cut <= from) ?? 0;
    coloured = { tokens: lexer.lexRecovering(text.whole.slice(base, to)).tokens, base };
}

function lexAll() {
    const { whole } = text;
    const before = performance.now();
    try {
        lexed = lexer.lexRecovering(whole);
    } catch (error) {
        tell(error.message);
        return;
    }
    const milliseconds = performance.now() - before;
    part("time").dataset.milliseconds = milliseconds;
    part("time").textContent = `lexed in ${milliseconds < 0.1 ? "< 0.1" : milliseconds.toFixed(1)} ms`;
    marks = lexed.faults.map((fault) => markOf(whole, fault));
    cuts = whole.length > LONG_TEXT ? cutsOf(lexed.tokens) : [];
    coloured = { tokens: lexed.tokens, base: 0 };
    isWhole = true;
    list.tokens = lexed.tokens;
    showFaults();
    announce();
    show();
}

// Showing. What depends on what is in view is shown once a frame.

function show() {
    frame ||= requestAnimationFrame(() => {
        frame = 0;
        showFrame();
    });
}

function showFrame() {
    if (revealed !== null) {
        reveal(Math.min(revealed, text.length));
        revealed = null;
    }
    // What is measured before anything is changed costs the browser one layout.
    const view = visible();
    list.measure();
    if (inColours?.coloured !== coloured || inColours.from !== view.from || inColours.to !== view.to) {
        if (isWhole) {
            notes = notesIn(view);
        } else {
            lexShown(view);
        }
        inColours = { coloured, ...view };
        showColours(view);
        showMargin(view);
    }
    if (isMoved && isWhole) {
        isMoved = false;
        list.offset = caret;
    }
    showMeasures();
    list.render();
}

/** The lines that are in view, with some around them, and their span. */
function visible() {
    const { scrollTop, clientHeight } = part("editor");
    const step = STEP * LINE;
    const first = Math.max(0, STEP * (Math.floor(scrollTop / step) - 1));
    const last = Math.min(text.lines, STEP * (Math.ceil((scrollTop + clientHeight) / step) + 1));
    return { first, last, from: text.lineStart(first), to: text.lineStart(last) };
}

function showColours({ from, to }) {
    const ranges = tokenRanges(text, coloured.tokens, coloured.base, from, to);
    GROUPS.forEach((group) => highlight(group, ranges.get(group) ?? []));
    if (isWhole) {
        highlight("fault", markRanges(text, marks, from, to));
    }
}

/** The message of each fault that is in view, with the line and the width of what it comes after. */
function notesIn({ from, to }) {
    return lexed.faults.flatMap((fault, index) => {
        const { begin } = marks[index];
        if (begin < from || begin > to) {
            return [];
        }
        const { line } = text.placeAt(begin);
        return [{ line, width: widthOfLine(line), message: `${fault.code} ${said(fault)}` }];
    });
}

/** Shows line numbers, and messages after lines. */
function showMargin({ first, last }) {
    const margin = JSON.stringify([first, last, text.lines, notes]);
    if (margin === shownMargin) {
        return;
    }
    shownMargin = margin;
    const faulty = new Set(notes.map(({ line }) => line));
    const numbers = Array.from({ length: last - first }, (_, index) => {
        const number = document.createElement("div");
        number.textContent = first + index + 1;
        number.className = faulty.has(first + index) ? "at-fault" : "";
        return number;
    });
    part("numbers").style.top = `${first * LINE}px`;
    part("numbers").replaceChildren(...numbers);
    part("notes").replaceChildren(...notes.map(noteOf));
    part("editor").style.setProperty("--digits", String(text.lines).length);
}

function noteOf({ line, width, message }) {
    const made = document.createElement("div");
    made.className = "note";
    made.textContent = message;
    made.style.top = `${line * LINE}px`;
    made.style.left = `calc(var(--gutter) + ${width}px)`;
    return made;
}

/** How wide the characters of a line are that are between two offsets. */
function widthOf(begin, end) {
    if (begin === end) {
        return 0;
    }
    const range = document.createRange();
    range.setStart(...text.pointAt(begin));
    range.setEnd(...text.pointAt(end));
    return range.getBoundingClientRect().width;
}

function widthOfLine(line) {
    const [begin, end] = [text.lineStart(line), text.lineStart(line + 1)];
    return widthOf(begin, begin + text.whole.slice(begin, end).replace(/\r?\n$/, "").length);
}

function showMeasures() {
    const { line, column } = text.placeAt(Math.min(caret, text.length));
    part("caret").textContent = `${line + 1}:${column + 1}`;
    part("size").textContent = `${counted(text.lines, "line")}, ${counted(text.length, "character")}`;
    part("count").textContent = counted(lexed.tokens.length, "token");
}

function said(fault) {
    return fault.message.replace(/^Parse error: /, "");
}

function showFaults() {
    const { faults } = lexed;
    part("fault-count").textContent = faults.length === 0 ? "No faults" : counted(faults.length, "fault");
    part("faults").classList.toggle("none", faults.length === 0);
    part("fault-list").replaceChildren(...faults.slice(0, MOST_FAULTS).map(faultRow));
    part("more-faults").textContent =
        faults.length > MOST_FAULTS ? `and ${counted(faults.length - MOST_FAULTS, "further fault")}` : "";
}

function faultRow(fault, index) {
    const row = document.createElement("li");
    const button = row.appendChild(document.createElement("button"));
    const { line, column } = text.placeAt(fault.begin);
    for (const [className, content] of [
        ["code", fault.code],
        ["place", `${line + 1}:${column + 1}`],
        ["message", said(fault)],
    ]) {
        const span = button.appendChild(document.createElement("span"));
        span.className = className;
        span.textContent = content;
    }
    button.addEventListener("click", () => choose(marks[index].begin, marks[index].end));
    return row;
}

/** Selects a span of the text, and brings it into view. */
function choose(begin, end) {
    part("text").focus({ preventScroll: true });
    editor.select(begin, end);
}

/** Scrolls so that an offset is shown. */
function reveal(offset) {
    const view = part("editor");
    const { line, column } = text.placeAt(offset);
    const top = line * LINE;
    if (top < view.scrollTop) {
        view.scrollTop = top - LINE;
    } else if (top + 3 * LINE > view.scrollTop + view.clientHeight) {
        view.scrollTop = top + 3 * LINE - view.clientHeight;
    }
    const left = widthOf(offset - column, offset);
    const width = view.clientWidth - part("numbers").offsetWidth - 3 * LINE;
    if (left < view.scrollLeft || left > view.scrollLeft + width) {
        view.scrollLeft = Math.max(0, left - width + LINE);
    }
}

/** Follows the caret, also in the list of tokens. */
function follow(offset) {
    if (caret !== offset) {
        caret = offset;
        isMoved = true;
    }
    show();
}

// What a screen reader says, once typing pauses.
let announcing = 0;
function announce() {
    clearTimeout(announcing);
    announcing = setTimeout(() => {
        const [first] = lexed.faults;
        const faults = first ? `${counted(lexed.faults.length, "fault")}: ${said(first)}` : "no faults";
        part("status").textContent = `${counted(lexed.tokens.length, "token")}, ${faults}`;
    }, 1000);
}

let telling = 0;
function tell(message) {
    clearTimeout(telling);
    part("notice").textContent = message;
    telling = setTimeout(() => (part("notice").textContent = ""), 8000);
}

// What the user does

function load(loaded) {
    editor.load(loaded);
    part("editor").scrollTo(0, 0);
    follow(0);
}

async function open(file) {
    const bytes = new Uint8Array(await file.arrayBuffer());
    try {
        load(new TextDecoder("utf-8", { fatal: true, ignoreBOM: true }).decode(bytes));
        part("example").value = "";
        document.title = `${file.name} – Starlark lexer`;
    } catch {
        tell(`${file.name} is not UTF-8`);
    }
}

async function copyLink() {
    const link = new URL(await fragmentOf(text.whole), location.href);
    history.replaceState(null, "", link.hash);
    try {
        await navigator.clipboard.writeText(link.href);
        tell("The link is copied. It holds the text.");
    } catch {
        tell("The link is in the address bar. It holds the text.");
    }
}

async function loadLink() {
    const linked = await textOf(location.hash);
    if (linked !== null) {
        part("example").value = "";
        load(linked);
    } else if (location.hash.length > 1) {
        tell("The link holds no text that can be read.");
    }
    return linked !== null;
}

function setTheme(theme) {
    document.documentElement.style.colorScheme = THEMES[theme] ?? THEMES.auto;
    part("theme").value = theme in THEMES ? theme : "auto";
}

// A browser may refuse to keep anything for a page from the file system.
function kept(action) {
    try {
        return action(localStorage);
    } catch {
        return null;
    }
}

function listen() {
    part("open").addEventListener("click", () => part("file").click());
    part("file").addEventListener("change", ({ target }) => {
        if (target.files[0]) {
            open(target.files[0]);
        }
        target.value = "";
    });
    part("example").addEventListener("change", ({ target }) => load(EXAMPLES[target.value]));
    part("link").addEventListener("click", copyLink);
    part("theme").addEventListener("change", ({ target }) => {
        setTheme(target.value);
        kept((storage) => storage.setItem("theme", target.value));
    });
    addEventListener("hashchange", loadLink);
    document.addEventListener("selectionchange", () => {
        const { selection } = editor;
        if (selection && selection.focus !== caret) {
            follow(selection.focus);
        }
    });
    part("editor").addEventListener("scroll", show);
    new ResizeObserver(() => {
        inColours = null;
        show();
    }).observe(part("editor"));
    addEventListener("dragover", (event) => {
        if (event.dataTransfer.types.includes("Files")) {
            event.preventDefault();
            document.body.classList.add("dropping");
        }
    });
    addEventListener("dragleave", ({ relatedTarget }) => {
        document.body.classList.toggle("dropping", relatedTarget !== null);
    });
    addEventListener("drop", (event) => {
        document.body.classList.remove("dropping");
        if (event.dataTransfer.files[0]) {
            event.preventDefault();
            open(event.dataTransfer.files[0]);
        }
    });
}

async function start() {
    setTheme(kept((storage) => storage.getItem("theme")) ?? "auto");
    part("example").append(...Object.keys(EXAMPLES).map((name) => new Option(name, name)));
    try {
        const letters = atob(part("module").textContent);
        lexer = new Lexer(Uint8Array.from(letters, (letter) => letter.charCodeAt(0)));
        // The browser compiles a function as it is first called, which is no part of the times shown.
        Object.values(EXAMPLES).forEach((example) => lexer.lexRecovering(example));
    } catch (error) {
        document.body.classList.add("failed");
        part("failure").textContent = error.message;
    }
    listen();
    if (!(await loadLink())) {
        const [name] = Object.keys(EXAMPLES);
        part("example").value = name;
        load(EXAMPLES[name]);
    }
}

start();
