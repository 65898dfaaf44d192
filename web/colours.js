// Colours of the tokens and faults that are shown, by highlights of ranges: no element is made.

// The groups of classes. A group names its colour.
const GROUPS = {
    Comment: "comment",
    Layout: "layout",
    Name: "name",
    Number: "number",
    String: "string",
    Keyword: "keyword",
    Operator: "operator",
    Punctuation: "punctuation",
    Bracket: "punctuation",
};
// Kinds with a group of their own.
const INSERTS = new Set(["FStringExprStart", "FStringExprEnd", "FStringBang"]);

// A line end, and the lines of comments before an indentation.
const BEFORE_MARGIN = /(?:\r?\n)?(?:[ \t\r]*#[^\n]*\n)*/y;

/** The group of a token, which names its colour. */
export function groupOf(tokens, index) {
    return INSERTS.has(tokens.kind(index)) ? "insert" : GROUPS[tokens.kindClass(index)];
}

/** The number of the first token that ends after an offset. */
export function tokenAfter(tokens, offset) {
    let low = 0;
    let high = tokens.length;
    while (low < high) {
        const middle = (low + high) >> 1;
        if (tokens.end(middle) <= offset) {
            low = middle + 1;
        } else {
            high = middle;
        }
    }
    return low;
}

function rangeOf(text, begin, end) {
    const [startContainer, startOffset] = text.pointAt(begin);
    const [endContainer, endOffset] = text.pointAt(end);
    return new StaticRange({ startContainer, startOffset, endContainer, endOffset });
}

/** The ranges of the tokens between two offsets, by group. Tokens count offsets from `base`. A name has
 * the colour of the text, and no range. */
export function tokenRanges(text, tokens, base, begin, end) {
    const ranges = new Map();
    for (let index = tokenAfter(tokens, begin - base); index < tokens.length; index++) {
        const from = tokens.begin(index) + base;
        if (from >= end) {
            break;
        }
        const to = tokens.end(index) + base;
        const group = groupOf(tokens, index);
        if (from < to && group !== "name") {
            ranges.set(group, ranges.get(group) ?? []);
            ranges.get(group).push(rangeOf(text, from, to));
        }
    }
    return ranges;
}

/** The characters of a fault to mark. The tab of a fault is after its place, and a wrong indentation
 * is marked on its own line. A fault without characters gets the next one. */
export function markOf(whole, { kind, begin, end }) {
    if (kind === "InvalidTab") {
        BEFORE_MARGIN.lastIndex = begin;
        const tab = whole.indexOf("\t", whole[begin] === "\t" ? begin : begin + BEFORE_MARGIN.exec(whole)[0].length);
        return { begin: tab, end: tab + 1 };
    }
    if (kind === "Indentation") {
        return { begin: whole.lastIndexOf("\n", end - 1) + 1, end };
    }
    return { begin, end: Math.max(end, Math.min(begin + 1, whole.length)) };
}

/** The ranges of marks between two offsets. */
export function markRanges(text, marks, begin, end) {
    return marks.filter((mark) => mark.begin < end && mark.end >= begin).map((mark) => rangeOf(text, mark.begin, mark.end));
}

/** Shows ranges in the colour of a name, in place of those that it had. */
export function highlight(name, ranges) {
    if (globalThis.CSS?.highlights) {
        CSS.highlights.set(name, new Highlight(...ranges));
    }
}
