// Counts the checks, and says which failed.
"use strict";
const tally = { passed: 0, failed: 0 };
function ok(holds, name, found) {
  if (holds) tally.passed++;
  else {
    tally.failed++;
    console.log("FAILED", name, found === undefined ? "" : JSON.stringify(found).slice(0, 1500));
  }
}
const same = (found, expected, name) => ok(JSON.stringify(found) === JSON.stringify(expected), name, { found, expected });
module.exports = { ok, same, tally };
