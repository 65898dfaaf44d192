// Editing: what the keyboard, the clipboard, the mouse and input methods do to the text, with a
// history of its own.
import { EditedText } from "./text.js";

const INDENTATION = "    ";
const TOGETHER = 1000;
const MOST_EDITS = 1000;
// The code of a key that an input method takes.
const INPUT_METHOD = 229;

const segmenter = new Intl.Segmenter(undefined, { granularity: "grapheme" });

/** An editor in an element. It calls `changed` with the start of each change, and `moved` with the
 * offset of the caret where it has moved that itself. */
export class Editor {
    text;
    #root;
    #changed;
    #moved;
    #done = [];
    #undone = [];
    #lastEdit = 0;

    constructor(root, changed, moved) {
        this.#root = root;
        this.#changed = changed;
        this.#moved = moved;
        this.text = new EditedText(root);
        // An older Firefox doesn't know the value that index.html has.
        if (root.contentEditable !== "plaintext-only") {
            root.contentEditable = "true";
        }
        root.addEventListener("beforeinput", (event) => this.#beforeInput(event));
        root.addEventListener("input", (event) => this.#read(event.isComposing));
        root.addEventListener("compositionend", () => this.#read(false));
        root.addEventListener("keydown", (event) => this.#keyDown(event));
        root.addEventListener("copy", (event) => this.#copy(event));
        root.addEventListener("cut", (event) => this.#cut(event));
    }

    /** Shows another text, and forgets the history. */
    load(text) {
        this.text.set(text);
        this.#done = [];
        this.#undone = [];
        this.#changed(0);
    }

    /** Where the selection begins, ends and moves; null where it isn't in the text. */
    get selection() {
        const { anchorNode, anchorOffset, focusNode, focusOffset } = document.getSelection();
        if (!this.#root.contains(anchorNode) || !this.#root.contains(focusNode)) {
            return null;
        }
        const anchor = this.#offsetAt(anchorNode, anchorOffset);
        const focus = this.#offsetAt(focusNode, focusOffset);
        return { begin: Math.min(anchor, focus), end: Math.max(anchor, focus), focus };
    }

    /** Selects a span. */
    select(begin, end) {
        document.getSelection().setBaseAndExtent(...this.text.pointAt(begin), ...this.text.pointAt(end));
        this.#moved(end);
    }

    /** Puts a text in the place of a span, as one step of the history. */
    replace(begin, end, inserted) {
        const removed = this.text.whole.slice(begin, end);
        if (removed !== inserted) {
            this.#remember({ begin, removed, inserted });
            this.#apply(begin, end, inserted);
        }
        this.select(begin + inserted.length, begin + inserted.length);
    }

    #apply(begin, end, inserted) {
        this.text.replace(begin, end, inserted);
        this.#changed(begin);
    }

    // Characters that are typed one after another are one step.
    #remember(edit) {
        const last = this.#done.at(-1);
        const now = performance.now();
        const isTyped = edit.removed === "" && edit.inserted.length === 1 && edit.inserted !== "\n";
        const follows = last && last.isTyped && last.begin + last.inserted.length === edit.begin;
        if (isTyped && follows && now - this.#lastEdit < TOGETHER) {
            last.inserted += edit.inserted;
        } else {
            this.#done.push({ ...edit, isTyped });
            this.#done.splice(0, this.#done.length - MOST_EDITS);
        }
        this.#undone = [];
        this.#lastEdit = now;
    }

    #undo() {
        const edit = this.#done.pop();
        if (edit) {
            this.#undone.push(edit);
            this.#apply(edit.begin, edit.begin + edit.inserted.length, edit.removed);
            this.select(edit.begin, edit.begin + edit.removed.length);
        }
    }

    #redo() {
        const edit = this.#undone.pop();
        if (edit) {
            this.#done.push({ ...edit, isTyped: false });
            this.#apply(edit.begin, edit.begin + edit.removed.length, edit.inserted);
            this.select(edit.begin + edit.inserted.length, edit.begin + edit.inserted.length);
        }
    }

    #keyDown(event) {
        if (event.keyCode === INPUT_METHOD && !event.isComposing) {
            this.#deleteAcrossBlocks();
        }
        const key = event.key.toLowerCase();
        if (!(event.ctrlKey || event.metaKey) || event.altKey || (key !== "z" && key !== "y")) {
            return;
        }
        event.preventDefault();
        if (key === "y" || event.shiftKey) {
            this.#redo();
        } else {
            this.#undo();
        }
    }

    // An input method that replaces text of more than one block would lose some of it.
    #deleteAcrossBlocks() {
        const { anchorNode, focusNode } = document.getSelection();
        const { selection } = this;
        if (selection && anchorNode !== focusNode) {
            this.replace(selection.begin, selection.end, "");
        }
    }

    // What can't be stopped, as input by a method, the browser does by itself; #read takes it then.
    #beforeInput(event) {
        if (!event.cancelable || event.isComposing) {
            return;
        }
        event.preventDefault();
        const type = event.inputType;
        const { begin, end } = this.#target(event);
        if (type === "historyUndo") {
            this.#undo();
        } else if (type === "historyRedo") {
            this.#redo();
        } else if (type === "insertParagraph" || type === "insertLineBreak") {
            this.replace(begin, end, `\n${this.#indentation(begin)}`);
        } else if (type.startsWith("insert")) {
            const inserted = event.data ?? event.dataTransfer?.getData("text/plain") ?? "";
            this.replace(begin, end, inserted);
        } else if (type.startsWith("delete")) {
            this.#delete(type, begin, end);
        }
    }

    // The span that an event changes.
    #target(event) {
        const range = event.getTargetRanges()[0];
        if (!range) {
            return this.selection ?? { begin: 0, end: 0 };
        }
        const begin = this.#offsetAt(range.startContainer, range.startOffset);
        return { begin, end: this.#offsetAt(range.endContainer, range.endOffset) };
    }

    #offsetAt(node, offset) {
        return Math.min(this.text.offsetAt(node, offset), this.text.length);
    }

    #delete(type, begin, end) {
        const { selection } = this;
        if (type === "deleteContentBackward" && selection?.begin === selection?.end) {
            begin = this.#previous(selection.begin);
            end = selection.begin;
        } else if (type === "deleteContentForward" && selection?.begin === selection?.end) {
            begin = selection.begin;
            end = this.#next(selection.begin);
        }
        this.replace(begin, end, "");
    }

    #next(offset) {
        const rest = this.text.whole.slice(offset, offset + 64);
        const [first] = segmenter.segment(rest);
        return offset + (first ? first.segment.length : 0);
    }

    #previous(offset) {
        const front = this.text.whole.slice(Math.max(0, offset - 64), offset);
        const last = [...segmenter.segment(front)].at(-1);
        return offset - (last ? last.segment.length : 0);
    }

    // The indentation of a new line: that of the line before, and more after what opens a block.
    #indentation(offset) {
        const { whole } = this.text;
        const front = whole.slice(whole.lastIndexOf("\n", offset - 1) + 1, offset);
        const [margin] = front.match(/^ */);
        return /[:([{]\s*$/.test(front) ? margin + INDENTATION : margin;
    }

    // Takes what an input method has done.
    #read(isComposing) {
        const { focusNode, focusOffset } = document.getSelection();
        const caret = this.#root.contains(focusNode) ? this.text.offsetAt(focusNode, focusOffset) : 0;
        const edit = this.text.read(isComposing);
        if (!edit) {
            return;
        }
        if (edit.removed !== edit.inserted) {
            this.#remember(edit);
            this.#changed(edit.begin);
        }
        if (!isComposing) {
            const offset = Math.min(caret, this.text.length);
            this.select(offset, offset);
        }
    }

    #copy(event) {
        const { selection } = this;
        if (selection && selection.begin < selection.end) {
            event.preventDefault();
            event.clipboardData.setData("text/plain", this.text.whole.slice(selection.begin, selection.end));
        }
    }

    #cut(event) {
        this.#copy(event);
        if (event.defaultPrevented) {
            const { begin, end } = this.selection;
            this.replace(begin, end, "");
        }
    }
}
