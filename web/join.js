#!/usr/bin/env node
// join.js LIBRARY.wasm COMMIT OUT.html: puts style, script, known answers and library into one file. Of the script, comments
// and indents are left out. The page's policy lets only this script and this style run, by their hashes.
"use strict";
const fs = require("fs"), path = require("path"), crypto = require("crypto"), zlib = require("zlib");
const [wasm, commit, out] = process.argv.slice(2);
const MOST = 150000;
const SCRIPTS = ["tools", "text", "library", "cases", "files", "order", "hints", "tree", "steps", "page", "wire"];

const read = (name) => fs.readFileSync(path.join(__dirname, name), "utf8");
const hash = (text) => crypto.createHash("sha256").update(text, "utf8").digest("base64");
const lines = (text, keep) => text.split("\n").map((line) => line.trim()).filter(keep).join("\n");
const put = (text, name, what) => text.split("@" + name + "@").join(what);

// web/known.txt: a line that begins with `> ` is a question, the lines up to the next one are its answer
const known = [];
for (const line of read("known.txt").split("\n")) {
  if (line.startsWith("> ")) known.push([line.slice(2), ""]);
  else if (line !== "" && known.length) known[known.length - 1][1] += line + "\n";
}

const library = fs.readFileSync(wasm);
const constants = {
  WASM: zlib.deflateRawSync(library, { level: 9 }).toString("base64"), COMMIT: commit, KNOWN: known,
    SHEET: /^sheet (\w+)$/m.exec(read("known.txt"))[1],
  SUM: crypto.createHash("sha256").update(library).digest("hex").slice(0, 16),
};
const script = [`"use strict";`, ...Object.entries(constants).map(([name, value]) => `const ${name} = ${JSON.stringify(value)};`),
  ...SCRIPTS.map((name) => lines(read(`src/${name}.js`), (line) => line && !line.startsWith("//")))].join("\n");
const style = lines(read("src/page.css") + read("src/print.css"), (line) => line && !line.startsWith("/*"));
if (/<\/script|<\/style/i.test(script + style)) throw new Error("an end tag inside");
let page = put(put(read("src/page.html"), "SCRIPT_HASH", hash(script)), "STYLE_HASH", hash(style));
page = put(put(page, "STYLE", style), "SCRIPT", script);
fs.writeFileSync(out, page);
const bytes = Buffer.byteLength(page);
console.log(`${out}: ${bytes} bytes, at most ${MOST}; library ${library.length}, in the page ${constants.WASM.length}`);
process.exit(bytes > MOST ? 1 : 0);
