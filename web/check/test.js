#!/usr/bin/env node
// test.js PAGE NATIVE FOLDER [PART..]: drives the page in chromium. NATIVE is native.c with the library, FOLDER takes files and
// pictures; with PARTS only those are tested.
"use strict";
const fs = require("fs"), path = require("path");
const { open } = require("./browser.js");
const { ok, same, tally } = require("./tally.js");
const { answersOf, printed } = require("./native.js");
const { makeFiles } = require("./files.js");
const { verdicts } = require("./verdicts.js");
const { orders } = require("./orders.js");
const { sheets } = require("./sheets.js");
const { people } = require("./people.js");
const { closed } = require("./closed.js");
const { shots } = require("./shots.js");

const root = path.join(__dirname, "../.."), [page, program, folder] = process.argv.slice(2, 5).map((f) => path.resolve(f));
const only = process.argv.slice(5);

// The known answers of the page are those of the library on the PC, and of the program `dizbaral` where it is built.
function known(native) {
  const text = fs.readFileSync(path.join(root, "web/known.txt"), "utf8"), sheet = /^sheet (\w+)$/m.exec(text)[1];
  const asked = text.split("\n> ").slice(1).map((part) => { const at = part.indexOf("\n");
    return [part.slice(0, at).replace("SHEET", sheet), part.slice(at + 1).trimEnd() + "\n"]; });
  same(native(asked.map(([line]) => line)), asked.map(([, answer]) => answer), "web/known.txt is what the library says");
  const shell = path.join(root, "crates/dizbaral/out/dizbaral");
  if (!fs.existsSync(shell)) return console.log("crates/dizbaral/out/dizbaral is not there: it is not asked");
  for (const [line, answer] of asked) same(printed(shell, line), answer, "dizbaral " + line.slice(0, 30));
}

(async () => {
  const native = (lines) => answersOf(program, lines), files = path.join(folder, "files"), url = "file://" + page;
  fs.mkdirSync(files, { recursive: true });
  known(native);
  const b = await open();
  await b.size(1180, 900);
  await b.scheme("light");
  await b.go(url);
  ok((await b.run("document.getElementById('saying').textContent")) === "Drop the board house’s file to begin", "the page opens",
    await b.run("document.getElementById('why').textContent"));
  await makeFiles(files, (order, reading) => b.run(`orderedSheet(${JSON.stringify(order)}, ${reading})`));
  const parts = {
    verdicts: () => verdicts(b, url, files, native), orders: () => orders(b, url, files), sheets: () => sheets(b, url, files, native, root),
    people: () => people(b, url, files), shots: () => shots(b, url, files, folder, path.join(root, "docs/page.png")),
      closed: () => closed(b, url, page, folder),
  };
  for (const [name, part] of Object.entries(parts)) {
    if (only.length && !only.includes(name)) continue;
    const began = Date.now(), before = tally.passed;
    await part();
    console.log(`${name}: ${tally.passed - before} checks, ${((Date.now() - began) / 1000).toFixed(1)} s`);
  }
  await b.close();
  console.log(`${tally.passed} passed, ${tally.failed} failed`);
  process.exit(tally.failed ? 1 : 0);
})().catch((fault) => {
  console.error(fault);
  process.exit(2);
});
