// Each verdict, on both chips and with bad files: what the page says, what it marks, that its words are the library's, and that
// it prints on one page of A4 and fits a phone.
"use strict";
const fs = require("fs"), path = require("path");
const { ok, same } = require("./tally.js");
const { PLANS } = require("./files.js");

const ORDER = "reading=11&crystal=12&system=125", PLAN = (p) => "reading=11&order=plan&plan=" + p.replace("plan ", "").replace(/ /g, "+");
// name, file, address, class, heading (null: any), words in the verdict, settings that differ, clocks that follow (null: any)
const CASES = [
  ["as ordered", "good-125.bin", ORDER, "good", "As ordered", ["All 496 bytes"], [], []],
  ["hex", "plain.hex", ORDER, "good", "As ordered", [], [], []],
  ["hex in upper case, with spaces and CRLF", "upper-crlf.hex", ORDER, "good", "As ordered", [], [], []],
  ["hex with a BOM", "bom.hex", ORDER, "good", "As ordered", [], [], []],
  ["hex in UTF-16", "utf16.hex", ORDER, "good", "As ordered", [], [], []],
  ["hex as C has it", "as-c.txt", ORDER, "good", "As ordered", [], [], []],
  ["another frequency", "good-125.bin", "reading=11&crystal=12&system=133", "differs", "Differs from the order in one setting",
    ["system PLL", "fbdiv 133", "clk_peri 125 MHz, ordered 133 MHz"], ["pll_sys"], ["clk_sys", "clk_peri"]],
  ["faster, with another voltage", "good-200.bin", "reading=11&crystal=12&system=133", "differs", "Differs from the order in 3 settings",
    ["voltage code", "7000 cycles"], ["pll_sys", "voltage", "settling"], ["clk_sys", "clk_peri"]],
  ["one bit, still a sheet", "bit-ring-divider.bin", ORDER, "differs", "Differs from the order in one setting",
    ["divider 17", "divider 16"], ["rosc"], []],
  ["one bit, no sheet", "bit-startup.bin", ORDER, "bad", "Not a sheet: refused 26",
    ["Step 14 is the first that does not fit", "delay 6001", "delay 6000", "Bit 4 of byte 114, in step 14, is the only one"]],
  ["one bit, no sheet, no order", "bit-startup.bin", "reading=11&crystal=12", "bad", "Not a sheet: refused 26", ["Step 14 is the first"]],
  ["one bit, no step", "bit-no-step.bin", ORDER, "bad", "Not a sheet: refused 26", ["Step 1, 1000000000000001, is no step of the RP2040"]],
  ["a PLL that is refused", "pll-refused.bin", ORDER, "bad", "Not a sheet: refused 26",
    ["are refused with 5: The system PLL is not valid"]],
  ["wrong reading", "good-125.bin", "reading=12&crystal=12&system=125", "differs", "Differs from the order in one setting",
    ["1150 mV", "1100 mV"], ["voltage"], []],
  ["wrong reading, refused", "reading0-133.bin", "reading=11&crystal=12&system=133", "bad", "Not a sheet: refused 26",
    ["At another reading, 0 to 10 and 12 to 15"]],
  ["a reading of no voltage", "good-125.bin", "reading=3&crystal=12&system=125", "bad", "Not a sheet: refused 26",
    ["At another reading, 0 and 6 to 15", "Reading 3 is the code of no voltage"]],
  ["no such reading", "good-125.bin", "reading=16&crystal=12&system=125", "bad", "Refused 18: no reading of the RP2040",
    ["on the RP235x over 31"]],
  ["no such reading, RP235x", "rp235x-150.bin", "reading=32&chip=1&crystal=12&system=150", "bad",
    "Refused 18: no reading of the RP235x", []],
  ["RP235x", "rp235x-150.bin", "reading=11&chip=rp235x&crystal=12&system=150", "good", "As ordered", ["All 504 bytes"], [], []],
  ["RP235x at another reading", "rp235x-200.bin", "reading=9&chip=1&crystal=12&system=200", "good", "As ordered", [], [], []],
  ["RP235x for the other chip", "rp235x-150.bin", "reading=11&crystal=12&system=150", "differs", null,
    ["chip", "rp235x", "rp2040"], null, null],
  ["8 MHz crystal", "crystal8-125.bin", "reading=11&crystal=8&system=125", "good", "As ordered", [], [], []],
  ["8 MHz crystal for 12", "crystal8-125.bin", ORDER, "differs", null, ["crystal", "8 MHz"], null, null],
  ["preset crystal", "good-125.bin", "reading=11&order=preset&preset=crystal&crystal=12", "good", "As ordered", [], [], []],
  ["preset rosc", "ring-only.bin", "reading=11&order=preset&preset=rosc", "good", "As ordered", [], [], []],
  ["preset manual_pll", "manual.bin",
    "reading=11&order=preset&preset=manual&crystal=12&refdiv=1&fbdiv=100&post1=5&post2=2&code=12", "good", "As ordered", [], [], []],
  ["preset default, which is refused", "good-125.bin", "reading=11&order=preset&preset=default", "warn",
    "A sheet, but the order is refused with 8", ["The reference clock is 0 Hz"], [], []],
  ["plan in numbers", "odd-plan.bin", PLAN(PLANS.odd), "good", "As ordered", [], [], []],
  ["plan of another length", "odd-plan.bin", "reading=11&order=plan&plan=1+2+3", "warn", "A sheet, but the order is not complete",
    ["48 numbers; these are 3"], [], []],
  ["ring only", "ring-only.bin", ORDER, "differs", null, ["absent"], null, null],
  ["an odd plan", "odd-plan.bin", ORDER, "differs", null, ["3.428571 MHz from ref, divider 3 + 128/256"], null, null],
  ["crystal only", "crystal-only.bin", ORDER, "differs", null, ["absent"], null, null],
  ["cut inside a step", "cut-495.bin", ORDER, "bad", "Not a sheet: refused 26",
    ["495 bytes, which is no whole number of steps", "first 495 of the 496 ordered bytes"]],
  ["cut after a step", "cut-488.bin", ORDER, "bad", "Not a sheet: refused 26", ["first 488 of the 496 ordered bytes"]],
  ["a step too many", "more-504.bin", ORDER, "bad", "Not a sheet: refused 26", ["8 bytes follow it"]],
  ["1 MB of noise", "noise.bin", ORDER, "bad", "The file is too long: refused 26", ["1\u202f048\u202f576 bytes; a sheet has at most 528"]],
  ["10 MB", "huge.bin", ORDER, "bad", "The file is too long", ["10\u202f485\u202f760 bytes and was not opened"]],
  ["empty", "empty.bin", ORDER, "bad", "The file is empty", []],
  ["spaces alone", "spaces.txt", ORDER, "bad", "The file is empty", []],
  ["an odd number of digits", "odd.hex", ORDER, "bad", "Half a byte is missing", ["odd number of digits, 991"]],
  ["a digit that is none", "letter.hex", ORDER, "bad", "It is no hex", ["“g” in line 2 is no hex digit"]],
  ["a letter", "letter.txt", ORDER, "bad", "It is no hex", ["line 1 is no hex digit"]],
  ["a PNG picture", "picture.png", ORDER, "bad", "This is no sheet", ["a PNG picture"]],
  ["a JPEG picture", "picture.jpg", ORDER, "bad", "This is no sheet", ["a JPEG picture"]],
  ["no order", "good-125.bin", "reading=11&crystal=12", "warn", "A sheet. What was ordered?", ["clk_sys at 125 MHz"], [], []],
  ["order refused with 25", "good-125.bin", "reading=11&crystal=11&system=125", "warn",
    "A sheet, but the order is refused with 25", ["No USB PLL gives 48 MHz"], [], []],
  ["order refused with 15", "good-125.bin", "reading=11&crystal=4&system=125", "warn", "A sheet, but the order is refused with 15",
    ["No valid PLL setting"], [], []],
  ["order is no number", "good-125.bin", "reading=11&crystal=12&system=12x", "warn", "A sheet, but the order is not complete",
    ["in MHz"], [], []],
  ["no reading", "good-125.bin", "crystal=12&system=125", "none", "Give the regulator’s reading", []],
  ["a reading that is no number", "good-125.bin", "reading=1a&crystal=12&system=125", "none", "The reading is a number", []],
];

// What the page shows.
const LOOK = `(() => {
  const e = (id) => document.getElementById(id), all = (q) => [...document.querySelectorAll(q)], t = (x) => x.textContent;
  const marked = (m) => all("#words > div").filter((d) => t(d.querySelector(".m")) === m).map((d) => t(d.querySelector("dt")));
  return { kind: e("verdict").className, saying: t(e("saying")), why: e("why").innerText.replace(/[ \\n\\t]+/g, " "),
    tree: !e("tree-part").hidden,
    signs: all("#tree .wide text").map(t).filter((x) => x === "≠").length, differs: marked("≠"), follows: marked("↳"),
    words: all("#words > div").map((d) => [t(d.querySelector("dt")), t(d.querySelector("dd"))]),
    table: all("#why tbody tr").map((r) => [...r.children].map(t)), clocks: all("#why .clocks span").map(t),
    steps: all("#steps li:not(.lacks)").map((l) => ["n", "hex", "k", "name", "does"].map((c) => t(l.querySelector("." + c)))),
    wide: document.documentElement.scrollWidth, errors };
})()`;

// 12.5 MHz as 12500000 Hz again, as the library's text has it.
const plainHz = (text) => text.replace(/(\d+)(?:\.(\d+))? (MHz|kHz)/g,
  (_, whole, part = "", unit) => Number(whole + part.padEnd(unit === "MHz" ? 6 : 3, "0")) + " Hz");

// The page's words as the lines of the library's texts.
function linesOf(got) {
  const settings = got.words.map(([key, text]) => (key.includes(" ") ? key + ":" + (text === "none" ? "" : " " + text)
    : key.replace(/^clk_/, "") + " " + plainHz(text)));
  const steps = got.steps.map(([n, hex, kind, name, does]) => (kind ? `${n} ${hex} ${kind} ${plainHz(name)}; ${does}`
    : `${n} ${hex} no step`));
  const firstWordLess = (line) => line.replace(/^(\s+\w+: )\w+ /, "$1");
  const table = got.table.flatMap(([name, delivered, ordered]) => [name, "  delivered: " + plainHz(delivered),
    "  ordered: " + plainHz(ordered)]);
  const clocks = got.clocks.map((c) => { const [, key, rest] = /^(\w+) (.*)$/.exec(c);
    return `clock ${key.replace(/^clk_/, "").toLowerCase()}: delivered ${plainHz(rest)}`; });
  return { settings, steps, differences: [...table, ...clocks], firstWordLess };
}

// The words of the page against those of the library on the PC.
function sameWords(name, got, hex, reading, order, native) {
  const lines = linesOf(got), [explained, steps, checked] = native(["explain " + reading + " " + hex, "steps " + hex,
    `check ${reading} ${hex} ${order}`]).map((t) => t.trimEnd().split("\n"));
  same(lines.settings, explained, name + ": the settings are those of the library");
  same(lines.steps, steps, name + ": the steps are those of the library");
  if (checked[0] === "differs") same(["differs", ...lines.differences], checked.map(lines.firstWordLess),
    name + ": the differences are those of the library");
  if (checked[0].startsWith("refused")) ok(got.why.includes(checked[1].replace(/^\w+: /, "")),
    name + ": the meaning of the refusal is the library's", checked);
  ok((checked[0] === "as ordered") === (got.kind === "good"), name + ": the verdict is the library's", checked);
}

async function verdicts(b, url, files, native) {
  for (const [name, file, address, kind, saying, words, differs, follows] of CASES) {
    await b.go(url + "#" + address);
    await b.file("delivered", path.join(files, file));
    const once = () => b.run("{ const began = performance.now(); look(); performance.now() - began; }");
    const took = Math.min(await once(), await once(), await once()), got = await b.run(LOOK);
    ok(got.kind === kind && (saying === null || got.saying === saying), name + ": the verdict", got);
    for (const w of words) ok(got.why.includes(w), name + ": says “" + w + "”", got.why);
    if (differs) same(got.differs, differs, name + ": the settings that differ");
    if (follows) same(got.follows, follows, name + ": the clocks that follow");
    ok(got.tree === ["good", "differs", "warn"].includes(kind), name + ": a tree exactly where there is a plan");
    const unboxed = got.differs.filter((d) => ["chip", "voltage", "settling"].includes(d)).length;
    if (kind === "differs") ok(got.signs === got.differs.length - unboxed, name + ": marked by a sign", got);
    same(got.errors, [], name + ": no error");
    ok(took < 1000, name + ": within a second", took);
    if (got.tree) {
      const hex = await b.run("given.delivered.hex"), order = await b.run("(orderGiven(given.order) || {}).words || 'system 1'");
      const reading = /reading=(\d+)/.exec(address)[1], raw = fs.readFileSync(path.join(files, file));
      if (/\.bin$/.test(file)) ok(raw.toString("hex") === hex, name + ": the bytes are the file's");
      if (got.kind !== "warn" || !/What was|not complete/.test(got.saying)) sameWords(name, got, hex, reading, order, native);
    }
    if (kind !== "none") {
      const pages = ((await b.pdf()).toString("latin1").match(/\/Type\s*\/Page\b/g) || []).length;
      ok(pages === 1, name + ": prints on one page", pages);
    }
    await b.size(360, 740, 1, true);
    const phone = await b.run(LOOK);
    ok(phone.wide <= 360, name + ": fits a phone", phone.wide);
    await b.size(1180, 900);
  }
}
module.exports = { verdicts, LOOK, ORDER };
