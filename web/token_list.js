// The list of tokens. Only the rows that are shown have elements, which are used again.
import { groupOf, tokenAfter } from "./colours.js";

const ROW = 24;
// Browsers limit the height of an element; in a longer list the bar moves by more than a row.
const MOST_HEIGHT = 8_000_000;
const MOST_VALUE = 200;
const QUOTED = ["Comment", "String", "FStringText"];

/** The value of a token as the list shows it: decoded text in quotes, all else plain. */
function shownValue({ kind, value }) {
    if (value instanceof Uint8Array) {
        return Array.from(value.subarray(0, MOST_VALUE), (byte) => byte.toString(16).padStart(2, "0")).join(" ");
    }
    const text = String(value ?? "").slice(0, MOST_VALUE);
    return QUOTED.includes(kind) ? JSON.stringify(text) : text;
}

/** An element that shows one token at a time. */
class Row {
    constructor() {
        this.element = document.createElement("div");
        this.element.role = "option";
        this.parts = ["span", "kind", "value"].map((name) => {
            const part = this.element.appendChild(document.createElement("span"));
            part.className = name;
            return part.appendChild(document.createTextNode(""));
        });
    }

    show(tokens, index, top, isCurrent) {
        const token = tokens.at(index);
        this.#set("id", `token-${index}`);
        this.#set("className", `row ${groupOf(tokens, index)}`);
        this.#set("ariaSetSize", String(tokens.length));
        this.#set("ariaPosInSet", String(index + 1));
        this.#set("ariaSelected", String(isCurrent));
        this.element.style.top = `${top}px`;
        const texts = [`${token.beginByte}–${token.endByte}`, token.kind, shownValue(token)];
        this.parts.forEach((part, number) => {
            if (part.data !== texts[number]) {
                part.data = texts[number];
            }
        });
    }

    #set(name, value) {
        if (this.element[name] !== value) {
            this.element[name] = value;
        }
    }
}

/** A list in an element. It calls `chosen` with a token that the user chooses. */
export class TokenList {
    #root;
    #sheet;
    #rows = [];
    #chosen;
    #tokens = { length: 0 };
    #view = { scrollTop: 0, clientHeight: 0 };
    #current = -1;
    #isMoved = false;

    constructor(root, chosen) {
        this.#root = root;
        this.#chosen = chosen;
        this.#sheet = root.appendChild(document.createElement("div"));
        this.#sheet.className = "rows";
        root.addEventListener("scroll", () => this.#update());
        root.addEventListener("keydown", (event) => this.#keyDown(event));
        root.addEventListener("click", (event) => this.#click(event));
        new ResizeObserver(() => this.#update()).observe(root);
    }

    /** Takes other tokens, which the next rendering shows. */
    set tokens(tokens) {
        this.#tokens = tokens;
        this.#current = Math.min(this.#current, tokens.length - 1);
    }

    /** Makes the token at an offset of the text the current one, which the next rendering shows. That is
     * the one after the offset, or the one before it where only that touches it. */
    set offset(offset) {
        const next = Math.min(tokenAfter(this.#tokens, offset), this.#tokens.length - 1);
        const isBefore = next > 0 && this.#tokens.begin(next) > offset && this.#tokens.end(next - 1) === offset;
        this.#move(isBefore ? next - 1 : next);
    }

    /** Measures what is in view, for the next rendering. */
    measure() {
        const { scrollTop, clientHeight } = this.#root;
        this.#view = { scrollTop, clientHeight };
    }

    /** Shows the rows that are in view. */
    render() {
        const { scrollTop, clientHeight } = this.#view;
        const height = Math.min(this.#tokens.length * ROW, MOST_HEIGHT);
        // How many pixels of rows one of the bar passes.
        const scale = height > clientHeight ? (this.#tokens.length * ROW - clientHeight) / (height - clientHeight) : 1;
        const scrolled = this.#scrolled(scale);
        const top = scrolled * scale;
        const first = Math.max(0, Math.floor(top / ROW) - 2);
        const last = Math.min(this.#tokens.length, Math.ceil((top + clientHeight) / ROW) + 2);
        this.#sheet.style.height = `${height}px`;
        this.#resize(Math.max(0, last - first));
        this.#rows.forEach((row, index) => {
            const number = first + index;
            row.show(this.#tokens, number, number * ROW - top + scrolled, number === this.#current);
        });
        if (scrolled !== scrollTop) {
            this.#root.scrollTop = scrolled;
        }
        this.#tellCurrent(first, last);
    }

    #update() {
        this.measure();
        this.render();
    }

    // Where the bar has to be: where it is, or where it shows the current token that was moved to.
    #scrolled(scale) {
        const { scrollTop, clientHeight } = this.#view;
        const top = this.#current * ROW;
        const isShown = top >= scrollTop * scale && top + ROW <= scrollTop * scale + clientHeight;
        const isKept = isShown || !this.#isMoved || this.#current < 0;
        this.#isMoved = false;
        return isKept ? scrollTop : Math.max(0, (top - clientHeight / 2) / scale);
    }

    #resize(count) {
        while (this.#rows.length > count) {
            this.#rows.pop().element.remove();
        }
        while (this.#rows.length < count) {
            this.#rows.push(new Row());
            this.#sheet.append(this.#rows.at(-1).element);
        }
    }

    #tellCurrent(first, last) {
        if (this.#current >= first && this.#current < last) {
            this.#root.setAttribute("aria-activedescendant", `token-${this.#current}`);
        } else {
            this.#root.removeAttribute("aria-activedescendant");
        }
    }

    #move(index) {
        this.#isMoved = true;
        this.#current = index;
    }

    #keyDown(event) {
        const page = Math.max(1, Math.floor(this.#root.clientHeight / ROW) - 1);
        const steps = { ArrowDown: 1, ArrowUp: -1, PageDown: page, PageUp: -page, Home: -Infinity, End: Infinity };
        if (event.key in steps) {
            event.preventDefault();
            this.#move(Math.max(0, Math.min(this.#current + steps[event.key], this.#tokens.length - 1)));
            this.#update();
        } else if (event.key === "Enter" && this.#current >= 0) {
            event.preventDefault();
            this.#chosen(this.#tokens.at(this.#current));
        }
    }

    #click(event) {
        const row = event.target.closest(".row");
        if (row) {
            this.#current = Number(row.id.slice("token-".length));
            this.#update();
            this.#chosen(this.#tokens.at(this.#current));
        }
    }
}
