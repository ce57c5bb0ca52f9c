// Many sheets: each single bit turned over, the sheets of crates/answers and crates/limits, and every line of those files.
"use strict";
const fs = require("fs"), path = require("path");
const { ok, same } = require("./tally.js");

// The verdict alone, which is what is asked of many sheets: settings and steps are not drawn.
const UNDRAWN = "showSettings = showSteps = hints = () => []";

async function singleBits(b, url, files) {
  await b.go(url + "#reading=11&crystal=12&system=125");
  await b.run(UNDRAWN);
  const hex = fs.readFileSync(path.join(files, "good-125.bin")).toString("hex");
  const seen = await b.run(`(() => { const seen = {};
    for (let i = 0; i < ${hex.length * 4}; i++) {
      const d = [...'${hex}'], at = i >> 2;
      d[at] = (parseInt(d[at], 16) ^ (8 >> (i & 3))).toString(16);
      put('delivered', { name: 'turned', hex: d.join(''), form: 'binary', bytes: ${hex.length / 2} });
      const kind = document.getElementById('verdict').className;
      seen[kind] = (seen[kind] || 0) + 1;
    }
    return seen; })()`);
  ok(!seen.good && (seen.bad || 0) + (seen.differs || 0) === hex.length * 4, "no single bit is as ordered", seen);
  same(await b.run("errors"), [], "single bits: no error");
  console.log("single bits turned over:", JSON.stringify(seen));
}

// The cases of a file with their answers; those that are no case are left out.
function casesOf(folder) {
  const read = (name) => fs.readFileSync(path.join(folder, name), "latin1").replace(/\n$/, "").split("\n");
  const answers = read("stdout");
  return read("stdin").map((line, i) => [line, answers[i]]).filter(([line, answer]) => answer !== "bad case" && line.length < 16000);
}

// Reading and order of a case that writes a sheet; null for any other.
function orderOf(line) {
  const [name, reading, , chip, ...plan] = line.split(" ");
  return name === "sheet" ? { reading, order: (chip === "1" ? "rp235x " : "") + "plan " + plan.join(" ") } : null;
}

// Each sheet of the files is as ordered. A refused order is refused with the same number: it is compared with a sheet of its chip
// at its reading. Where there is no such reading the sheet is refused with 18 before, whatever the order.
const FILED = `({ reading, order, answer }) => {
  const refused = answer.startsWith('refused'), chip = order.startsWith('rp235x') ? 'rp235x ' : '';
  const hex = refused ? orderedSheet(chip + 'crystal 12000000', reading) || SHEET : answer.split(' ')[1];
  orderGiven = () => ({ words: order, saying: order });
  document.getElementById('reading').value = reading;
  put('delivered', { name: 'filed', hex, form: 'binary', bytes: hex.length / 2 });
  return document.getElementById('saying').textContent;
}`;
async function filed(b, url, cases) {
  await b.go(url);
  await b.run(UNDRAWN);
  const asked = cases.map(([line, answer]) => ({ ...orderOf(line), answer })).filter((c) => c.order && c.answer !== "refused 19"),
    wrong = [];
  for (let at = 0; at < asked.length; at += 200) {
    const sayings = await b.run(`${JSON.stringify(asked.slice(at, at + 200))}.map(${FILED})`);
    sayings.forEach((saying, i) => {
      const { answer, reading, order } = asked[at + i], [, number] = /^refused (\d+)$/.exec(answer) || [];
      const expected = !number ? "As ordered" : reading > (order.startsWith("rp235x") ? 31 : 15) ? /^Refused 18/.exec(saying)
        && saying : "A sheet, but the order is refused with " + number;
      if (saying !== expected) wrong.push([asked[at + i], saying]);
    });
  }
  same(wrong.slice(0, 3), [], "the sheets of crates/answers and crates/limits are as ordered, their refusals the same");
  const sheets = asked.filter((c) => !c.answer.startsWith("refused")).length;
  ok(sheets >= 2000, "2,000 of them", sheets);
  console.log(`filed: ${sheets} sheets as ordered, ${asked.length - sheets} refused orders`);
}

// Every line of the files, asked of the library in the page and on the PC.
async function everyLine(b, url, cases, native) {
  await b.go(url);
  const lines = cases.map(([line]) => line), found = [];
  for (let at = 0; at < lines.length;
    at += 500) found.push(...(await b.run(`${JSON.stringify(lines.slice(at, at + 500))}.map((line) => ask(line))`)));
  same(found.findIndex((answer, i) => answer.split("\n")[0] !== cases[i][1]), -1, "every answer of crates/answers and crates/limits");
  const pc = native(lines);
  same(found.findIndex((answer, i) => answer !== pc[i]), -1, "every answer is the one on the PC");
  console.log(`lines of crates/answers and crates/limits: ${lines.length}`);
}

async function sheets(b, url, files, native, root) {
  const cases = ["answers", "limits"].flatMap((crate) => casesOf(path.join(root, "crates", crate)));
  await singleBits(b, url, files);
  await filed(b, url, cases);
  await everyLine(b, url, cases, native);
}
module.exports = { sheets };
