// The text of the editor, in blocks of whole lines, each with an element of its own. An edit touches
// the elements of few lines only, and the browser lays out no block that isn't shown.

const LINES_OF_BLOCK = 64;
const MOST_LINES = 2 * LINES_OF_BLOCK;
const FIRST = { index: 0, begin: 0, line: 0 };

function countLines(text) {
    let lines = 0;
    for (let at = text.indexOf("\n"); at >= 0; at = text.indexOf("\n", at + 1)) {
        lines++;
    }
    return lines;
}

/** The offset after as many lines of a text. */
function afterLines(text, lines, from = 0) {
    let at = from;
    for (; lines > 0; lines--) {
        at = text.indexOf("\n", at) + 1;
    }
    return at;
}

/** Some lines with their ends. */
class Block {
    constructor(text) {
        this.text = text;
        this.lines = countLines(text);
        this.element = document.createElement("div");
        this.node = document.createTextNode(text);
        this.element.append(this.node);
        this.#size();
    }

    /** Shows another text. */
    set(text) {
        this.text = text;
        this.lines = countLines(text);
        this.node.data = text;
        this.element.replaceChildren(this.node);
        this.#size();
    }

    /** Takes the text that the browser has put into the element, which may hold more nodes until then. */
    read(isComposing) {
        const shown = this.element.textContent;
        const isPlain = this.element.childNodes.length === 1 && this.element.firstChild === this.node;
        if (!isPlain && !isComposing) {
            this.set(shown);
        } else if (shown !== this.text) {
            this.text = shown;
            this.lines = countLines(shown);
            this.#size();
        }
    }

    #size() {
        this.element.style.setProperty("--lines", this.lines);
    }
}

/** Splits lines into blocks. */
function blocksOf(text) {
    const blocks = [];
    let begin = 0;
    for (let left = countLines(text); left > 0; left -= LINES_OF_BLOCK) {
        const end = left > LINES_OF_BLOCK ? afterLines(text, LINES_OF_BLOCK, begin) : text.length;
        blocks.push(new Block(text.slice(begin, end)));
        begin = end;
    }
    return blocks;
}

/** A text in an element. After its end the last block has one more line end, so that its last line
 * has a height. */
export class EditedText {
    #root;
    #blocks = [];
    #whole = null;
    #found = FIRST;

    constructor(root) {
        this.#root = root;
        this.set("");
    }

    get whole() {
        this.#whole ??= this.#blocks.map((block) => block.text).join("").slice(0, -1);
        return this.#whole;
    }

    get length() {
        return this.#blocks.reduce((length, block) => length + block.text.length, 0) - 1;
    }

    get lines() {
        return this.#blocks.reduce((lines, block) => lines + block.lines, 0);
    }

    set(text) {
        this.#found = FIRST;
        this.#blocks = blocksOf(`${text}\n`);
        this.#root.replaceChildren(...this.#blocks.map((block) => block.element));
        this.#whole = text;
    }

    /** Puts a text in the place of a span. */
    replace(begin, end, inserted) {
        const first = this.#find(begin);
        const last = this.#find(end);
        const front = first.block.text.slice(0, begin - first.begin);
        const rest = last.block.text.slice(end - last.begin);
        const text = front + inserted + rest;
        this.#whole = null;
        this.#found = FIRST;
        if (first.index === last.index && countLines(text) <= MOST_LINES) {
            first.block.set(text);
            return;
        }
        const blocks = blocksOf(text);
        const removed = this.#blocks.splice(first.index, last.index + 1 - first.index, ...blocks);
        removed[0].element.before(...blocks.map((block) => block.element));
        removed.forEach((block) => block.element.remove());
    }

    /** Takes what the browser has put into the elements by itself, and returns what that changed. While
     * an input method composes, no node is touched; where blocks were joined it then returns null. */
    read(isComposing) {
        const isSound = this.#blocks.every((block, index) => this.#holds(block, index));
        if (isComposing && !isSound) {
            return null;
        }
        const before = this.whole;
        this.#found = FIRST;
        if (isSound) {
            this.#blocks.forEach((block) => block.read(isComposing));
            this.#whole = null;
        } else {
            this.set(this.#root.textContent.replace(/\n$/, ""));
        }
        return difference(before, this.whole);
    }

    // Whether a block is where it was, after no other nodes, and has whole lines.
    #holds({ element }, index) {
        return this.#root.childNodes[index] === element && element.textContent.endsWith("\n");
    }

    /** The node and the offset in it of an offset. */
    pointAt(offset) {
        const { block, begin } = this.#find(offset);
        return [block.node, offset - begin];
    }

    /** The offset of a point of the document, which is in the element of the text. It may be one more than
     * the length of the text. */
    offsetAt(node, offset) {
        const index = this.#blocks.findIndex((block) => block.node === node);
        if (index >= 0 && this.#root.childNodes[index] === node.parentNode) {
            return this.#before(index) + offset;
        }
        const range = document.createRange();
        range.setStart(this.#root, 0);
        range.setEnd(node, offset);
        return range.toString().length;
    }

    /** The line and column of an offset, from 0. */
    placeAt(offset) {
        const { block, begin, line } = this.#find(offset);
        const front = block.text.slice(0, offset - begin);
        return { line: line + countLines(front), column: front.length - (front.lastIndexOf("\n") + 1) };
    }

    /** The offset where a line begins, or the end of the text. */
    lineStart(line) {
        let begin = 0;
        for (const block of this.#blocks) {
            if (line < block.lines) {
                return begin + afterLines(block.text, line);
            }
            line -= block.lines;
            begin += block.text.length;
        }
        return begin - 1;
    }

    #before(index) {
        return this.#blocks.slice(0, index).reduce((length, block) => length + block.text.length, 0);
    }

    // The block that has the character after an offset, with the offset and the line of its beginning.
    // It begins at the block that was found last, if that isn't after the offset.
    #find(offset) {
        let { index, begin, line } = offset >= this.#found.begin ? this.#found : FIRST;
        while (offset >= begin + this.#blocks[index].text.length) {
            begin += this.#blocks[index].text.length;
            line += this.#blocks[index].lines;
            index++;
        }
        this.#found = { index, begin, line };
        return { block: this.#blocks[index], ...this.#found };
    }
}

/** The shortest span of a text that an edit to another one replaces, and what it inserts. */
function difference(before, after) {
    const most = Math.min(before.length, after.length);
    let begin = 0;
    while (begin < most && before[begin] === after[begin]) {
        begin++;
    }
    let rest = 0;
    while (rest < most - begin && before[before.length - 1 - rest] === after[after.length - 1 - rest]) {
        rest++;
    }
    return { begin, removed: before.slice(begin, before.length - rest), inserted: after.slice(begin, after.length - rest) };
}
