// The files that the tests drop: sheets that the page's own library writes, and what happens to files on their way.
"use strict";
const fs = require("fs"), path = require("path");

const PLANS = {
  odd: "plan 1 48000000 2 1 2 3 4 5 6 7 0 3 1 12000000 200 0 0 0 0 0 1 1 120 6 5 13 1 500 1 4 0 3 128 1 4 1 0 1 2 0 0 0 0 1 2 2000 5 1",
  crystalOnly: "plan 0 0 0 0 0 0 0 0 0 0 0 0 1 12000000 128 0 0 0 0 0 0 0 0 0 0 11 0 0 2 1 0 1 0 0 0 0 0 0 0 0 0 0 0 0 0 0 0 0",
};
// name of the file, reading, order
const SHEETS = [
  ["good-125.bin", 11, "system 125000000"], ["good-133.bin", 11, "system 133000000"], ["good-200.bin", 11, "system 200000000"],
  ["rp235x-150.bin", 11, "rp235x crystal 12000000"], ["rp235x-200.bin", 9, "rp235x system_from 12000000 200000000"],
  ["crystal8-125.bin", 11, "system_from 8000000 125000000"], ["ring-only.bin", 11, "rosc"], ["reading0-133.bin", 0, "system 133000000"],
  ["manual.bin", 11, "manual 12000000 1 100 5 2 12"], ["odd-plan.bin", 11, PLANS.odd], ["crystal-only.bin", 11, PLANS.crystalOnly],
];

// Writes them all to a folder. `sheet` makes the bytes of an order at a reading.
async function makeFiles(folder, sheet) {
  const put = (name, bytes) => fs.writeFileSync(path.join(folder, name), bytes);
  for (const [name, reading, order] of SHEETS) put(name, Buffer.from(await sheet(order, reading), "hex"));
  const good = fs.readFileSync(path.join(folder, "good-125.bin")), hex = good.toString("hex");
  const turned = (at, bit) => { const b = Buffer.from(good); b[at] ^= 1 << bit; return b; };
  put("bit-startup.bin", turned(114, 4));
  put("bit-ring-divider.bin", turned(good.indexOf(Buffer.from("2c2ac0", "hex")) + 2, 2));
  put("bit-no-step.bin", turned(15, 0)); // a bit behind the fields of step 1
  put("pll-refused.bin", Buffer.from(hex.replace("540fa00000000000", "5428200000000000"), "hex")); // a feedback divider of 321
  put("cut-495.bin", good.subarray(0, 495));
  put("cut-488.bin", good.subarray(0, 488));
  put("more-504.bin", Buffer.concat([good, good.subarray(0, 8)]));
  put("empty.bin", "");
  put("spaces.txt", " \r\n\t\n");
  put("odd.hex", hex.slice(0, -1));
  put("letter.hex", hex.slice(0, 100) + "\n" + hex.slice(100, 200) + "g" + hex.slice(201));
  put("plain.hex", hex);
  put("upper-crlf.hex", hex.toUpperCase().match(/.{32}/g).map((l) => l.match(/../g).join(" ")).join("\r\n") + "\r\n");
  put("bom.hex", "\ufeff" + hex + "\r\n");
  put("utf16.hex", Buffer.from("\ufeff" + hex, "utf16le"));
  put("as-c.txt", hex.match(/../g).map((b) => "0x" + b).join(", ") + "\n");
  put("letter.txt", "Dear all, the sheet is attached.\n");
  put("picture.png", Buffer.from("89504e470d0a1a0a0000000d49484452", "hex"));
  put("picture.jpg", Buffer.from("ffd8ffe000104a464946", "hex"));
  let x = 7;
  put("noise.bin", Buffer.from(Array.from({ length: 1 << 20 }, () => (x = (Math.imul(x, 1664525) + 1013904223) >>> 0) >>> 24)));
  put("huge.bin", Buffer.alloc(10 << 20));
}
module.exports = { makeFiles, PLANS };
