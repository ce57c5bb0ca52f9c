// Pictures of the page, into a folder. page.png is the one that README shows: docs/page.png is a copy of it.
"use strict";
const fs = require("fs"), path = require("path");
const { ok } = require("./tally.js");
const { withPalette } = require("./png.js");

const MOST = 100000;

async function shots(b, url, files, folder, docs) {
  const show = async (file, address) => { await b.go(url + "#" + address); await b.file("delivered", path.join(files, file)); };
  const into = (name) => path.join(folder, name), height = () => b.run("document.documentElement.scrollHeight");
  await b.size(1180, 900);
  await b.scheme("light");
  await show("good-200.bin", "reading=11&crystal=12&system=133");
  const end = await b.run("Math.ceil(document.getElementById('tree-part').getBoundingClientRect().bottom + scrollY + 10)");
  await b.run("document.querySelector('#facts div:last-child dd').textContent = '18 Nov 2026, 09:30'"); // the same at each run
  await b.shot(into("page.png"), [40, 0, 1100, end]);
  fs.writeFileSync(into("page.png"), withPalette(fs.readFileSync(into("page.png"))));
  for (const file of [into("page.png"), docs]) {
    const size = fs.existsSync(file) ? fs.statSync(file).size : 0;
    ok(size > 0 && size <= MOST, path.basename(path.dirname(file)) + "/page.png is there and has at most 100 KB", size);
  }
  await b.shot(into("desktop-differs.png"), [0, 0, 1180, Math.min(2200, await height())]);
  await show("good-125.bin", "reading=11&crystal=12&system=125");
  await b.shot(into("desktop-as-ordered.png"), [0, 0, 1180, 1300]);
  fs.writeFileSync(into("print-as-ordered.pdf"), await b.pdf());
  await show("good-200.bin", "reading=11&crystal=12&system=133");
  for (const [id, value] of [["batch", "2026-47"], ["board", "17"], ["first", "A. Baker"], ["second", "C. Dahl"]]) await b.type(id, value);
  fs.writeFileSync(into("print-differs.pdf"), await b.pdf());
  await show("rp235x-150.bin", "reading=11&chip=1&order=preset&preset=crystal&crystal=12");
  await b.shot(into("desktop-rp235x.png"), [0, 0, 1180, 1300]);
  await b.scheme("dark");
  await show("bit-startup.bin", "reading=11&crystal=12&system=125");
  await b.shot(into("desktop-dark-refused.png"), [0, 0, 1180, 1300]);
  fs.writeFileSync(into("print-refused.pdf"), await b.pdf());
  await show("good-200.bin", "reading=11&crystal=12&system=133");
  await b.shot(into("desktop-dark-differs.png"), [0, 0, 1180, 1300]);
  await b.scheme("light");
  await b.size(390, 844, 2, true);
  await show("good-125.bin", "reading=11&crystal=12&system=133");
  await b.shot(into("phone-differs.png"), [0, 0, 390, 2600]);
  await b.size(1180, 900);
}
module.exports = { shots };
