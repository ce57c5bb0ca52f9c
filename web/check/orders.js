// Ways to give file and order: typed, dropped, pasted, as another file, from the address; and the record for the paper.
"use strict";
const fs = require("fs"), path = require("path");
const { ok, same } = require("./tally.js");
const { LOOK, ORDER } = require("./verdicts.js");

const dropping = (base64, name) => `{ const d = new DataTransfer();
  d.items.add(new File([Uint8Array.from(atob('${base64}'), (c) => c.charCodeAt(0))], ${JSON.stringify(name)}));
  document.body.dispatchEvent(new DragEvent('drop', { dataTransfer: d, bubbles: true, cancelable: true })); }`;

async function otherFile(b, url, F) {
  await b.go(url + "#reading=11");
  await b.choose("file");
  await b.file("delivered", F("good-125.bin"));
  await b.file("order", F("upper-crlf.hex"));
  ok((await b.run(LOOK)).saying === "As ordered", "as another file: the same", await b.run(LOOK));
  // the address has reading and ordered bytes: with it alone the page is the same again
  const address = await b.run("location.href");
  await b.go(address);
  await b.file("delivered", F("good-125.bin"));
  ok((await b.run(LOOK)).saying === "As ordered", "as another file, from the address", await b.run(LOOK));
  await b.file("order", F("rp235x-150.bin"));
  ok((await b.run(LOOK)).kind === "differs", "as another file: of the other chip");
  await b.file("order", F("bit-startup.bin"));
  ok((await b.run(LOOK)).saying === "A sheet, but the order is refused with 26", "as another file: that is none", await b.run(LOOK));
  await b.file("order", F("picture.png"));
  ok((await b.run(LOOK)).why.includes("The ordered file cannot be read. This is no sheet."), "as another file: a picture",
    await b.run(LOOK));
}

// What is typed and chosen by hand comes back from the address.
async function addresses(b, url, F) {
  await b.go(url);
  await b.type("reading", "11");
  await b.type("crystal", "12");
  await b.type("system", "132.999999");
  await b.file("delivered", F("good-133.bin"));
  ok((await b.run(LOOK)).saying === "As ordered", "typed: nearest to 132.999999 MHz", await b.run(LOOK));
  await b.choose("preset");
  await b.type("preset", "manual");
  for (const [id, value] of [["refdiv", "1"], ["fbdiv", "133"], ["post1", "6"], ["post2", "2"], ["code", "11"]]) await b.type(id, value);
  const first = await b.run(LOOK), address = await b.run("location.href");
  same(first.differs, ["rosc"], "typed: manual_pll has no ring");
  await b.go(address);
  await b.file("delivered", F("good-133.bin"));
  const second = await b.run(LOOK);
  same([second.saying, second.why], [first.saying, first.why], "the address brings the order back");
  await b.run("location.hash = 'reading=11&crystal=12&system=125'");
  await b.wait("document.getElementById('system').value === '125'");
  ok((await b.run(LOOK)).kind === "differs"
    && (await b.run("document.querySelector('input[name=way]:checked').value")) === "frequency",
    "another bookmark, with the page open", await b.run(LOOK));
}

async function dropAndPaste(b, url, F) {
  await b.go(url + "#" + ORDER);
  await b.run(dropping(fs.readFileSync(F("good-125.bin")).toString("base64"), "dropped.bin"));
  await b.wait("document.getElementById('delivered-name').textContent === 'dropped.bin'");
  ok((await b.run(LOOK)).saying === "As ordered", "dropped anywhere on the page", await b.run(LOOK));
  await b.type("pasted", fs.readFileSync(F("upper-crlf.hex"), "utf8"));
  ok((await b.run(LOOK)).saying === "As ordered", "pasted");
  await b.type("pasted", "not hex");
  ok((await b.run(LOOK)).saying === "It is no hex", "pasted, and no hex", await b.run(LOOK));
  await b.type("pasted", "");
  ok((await b.run(LOOK)).saying === "Drop the board house’s file to begin", "pasted, and taken away", await b.run(LOOK));
  await b.run(dropping("BQ==", "<img src=x onerror=alert(1)>.bin"));
  await b.wait("document.getElementById('delivered-name').textContent.startsWith('<img')");
  same(await b.run("document.querySelectorAll('img').length"), 0, "a name is never markup");
}

// From a file of 1 MB of noise to its verdict.
async function noise(b, url) {
  await b.go(url + "#" + ORDER);
  const took = await b.run(`(async () => {
    const bytes = Uint8Array.from({ length: 1 << 20 }, () => Math.random() * 256), file = new File([bytes], "noise");
    const began = performance.now();
    put("delivered", await fileRead(file));
    return performance.now() - began; })()`);
  ok(took < 1000 && (await b.run(LOOK)).saying === "The file is too long: refused 26", "1 MB of noise within a second", took);
}

// What was typed for the paper is on it, and the lines to sign are there without it.
async function record(b, url, F) {
  await b.go(url + "#" + ORDER);
  await b.file("delivered", F("good-125.bin"));
  const paper = "[...document.querySelectorAll('[data-paper]')].map((e) => [e.dataset.paper, e.textContent])";
  same(await b.run(paper), [["batch", ""], ["board", ""], ["first", ""], ["second", ""]], "the paper has four lines to write on");
  for (const [id, value] of [["batch", "2026-47"], ["board", "17"], ["first", "A. Baker"], ["second", "C. Dahl"]]) await b.type(id, value);
  same(await b.run(paper), [["batch", "2026-47"], ["board", "17"], ["first", "A. Baker"], ["second", "C. Dahl"]],
    "the paper has what was typed");
  await b.send("Emulation.setEmulatedMedia", { media: "print" });
  const parts = ["#signed", "header .record", "#verdict", "#tree-part", "#words-part", "#steps-part"];
  const seen = await b.run(`${JSON.stringify(parts)}.map((q) => document.querySelector(q).getClientRects().length > 0)`);
  same(seen, [true, true, true, true, true, true], "the paper shows verdict, tree, settings, steps, record and signatures");
  same(await b.run("[...document.querySelectorAll('.screen')].some((e) => e.getClientRects().length > 0)"), false,
    "the paper has no fields");
  await b.send("Emulation.setEmulatedMedia", { media: "" });
}

async function orders(b, url, files) {
  const F = (f) => path.join(files, f);
  await otherFile(b, url, F);
  await addresses(b, url, F);
  await dropAndPaste(b, url, F);
  await noise(b, url);
  await record(b, url, F);
}
module.exports = { orders };
