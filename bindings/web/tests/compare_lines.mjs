// Compares what the module finds in texts with lines of standard input, as random_texts.py writes them.
import { createInterface } from "node:readline";
import { pathToFileURL } from "node:url";
import { linesOfText } from "./lines.mjs";

const { lex } = await import(new URL("starlark_lexer.js", pathToFileURL(`${process.env.STARLARK_WEB}/`)));
let compared = 0;
for await (const line of createInterface({ input: process.stdin })) {
    const [digits, wanted] = JSON.parse(line);
    const source = Buffer.from(digits, "hex");
    const found = linesOfText(lex, source);
    if (found !== wanted) {
        console.log(`text ${JSON.stringify(source.toString())}\nwanted\n${wanted}found\n${found}`);
        process.exit(1);
    }
    compared++;
}
console.log(`${compared} random texts, no difference`);
