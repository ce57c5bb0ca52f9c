// The library as it is compiled for the PC, by native.c, and the program `dizbaral`, to compare the page with.
"use strict";
const { execFileSync } = require("child_process"), fs = require("fs");

// The answers to many lines.
function answersOf(program, lines) {
  const out = execFileSync(program, { input: lines.map((l) => l + "\n").join(""), maxBuffer: 1 << 28 }), answers = [];
  for (let at = 0; at < out.length;) {
    const end = out.indexOf(10, at), n = Number(out.toString("latin1", at, end));
    answers.push(out.toString("latin1", end + 1, end + 1 + n));
    at = end + 1 + n;
  }
  return answers;
}
// What the program prints for a line, whose words are its arguments; null where it was not built.
const printed = (program, line) => (fs.existsSync(program) ? execFileSync(program, line.split(" "),
  { maxBuffer: 1 << 24 }).toString("latin1") : null);
module.exports = { answersOf, printed };
