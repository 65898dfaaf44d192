// The texts that the page offers, by their names.

export const EXAMPLES = {
    "a BUILD file": `load("//tools:rules.bzl", "cc_library")

# Each call is a target.
cc_library(
    name = "lexer",
    srcs = glob(["*.cc"]),
    deps = [
        "//base:text",
        "@absl//strings",
    ],
    visibility = ["//visibility:public"],
)
`,
    "functions and blocks": `def longest(words, limit = 0x40):
    """The longest word that isn't over the limit."""
    best = ""
    for word in words:
        if len(word) > len(best) and len(word) <= limit:
            best = word
        elif not word:
            continue
    return best

scale = lambda x: x * 1.5e3 // 2
`,
    "strings and f-strings": `name = 'Käse 🧀'
path = r"C:\\bin"
data = b"\\x00\\xff"
text = f"{name!r}: {1 + 2} {{braces}} {path[0]}"
long = """one
two \\u2713
three"""
big = 123456789012345678901234567890
`,
    "faults": `x = 007
if x:
	y = 1
class = "a"
z = "not closed
a ? b
f = "\\q\\x4"
if y:
        deep = 1
    less = 2
done = True
`,
};
