// The page is closed: nothing comes in or goes out, and neither a changed script nor a changed library is used.
"use strict";
const fs = require("fs"), path = require("path"), crypto = require("crypto");
const { ok, same } = require("./tally.js");

const OUTSIDE = ["http:", "https:", "//cdn", "fetch(", "XMLHttpRequest", "WebSocket", "EventSource", "sendBeacon", "import(",
  "importScripts", "url(", "@import",
  "<link rel=\"stylesheet", "<script src", "<img", "<iframe", "localStorage", "document.cookie", "innerHTML", "eval("];

async function closed(b, url, page, folder) {
  const whole = fs.readFileSync(page, "utf8"), text = whole.replace(/const WASM = "[^"]*"/,
    "").replace("http://www.w3.org/2000/svg", "").replace("wasm-unsafe-eval", "");
  for (const word of OUTSIDE) ok(!text.includes(word), "no " + word);
  ok(text.includes("default-src 'none'"), "a policy that lets nothing in or out");
  ok(Buffer.byteLength(whole) <= 150000, "at most 150 KB", Buffer.byteLength(whole));
  for (const word of ["KINDS", "BLOCKS", "REFUSALS"]) ok(!text.includes(word), "no words of its own: " + word);

  const shown = "[document.getElementById('saying').textContent, document.getElementById('why').textContent]";
  // one character of the script changed: the policy does not let it run
  const spoilt = path.join(folder, "spoilt.html"), at = whole.indexOf('const WASM = "') + 20000;
  fs.writeFileSync(spoilt, whole.slice(0, at) + (whole[at] === "A" ? "B" : "A") + whole.slice(at + 1));
  await b.send("Page.navigate", { url: "file://" + spoilt });
  await b.wait("document.readyState === 'complete' && !!document.getElementById('saying')");
  await b.pause(300);
  same((await b.run(shown))[0], "Opening …", "a changed script does not run");
  // another known answer, and the policy made to fit: the library is not used
  const script = /<script>([^]*)<\/script>/.exec(whole)[1], other = script.replace("fbdiv 125, post", "fbdiv 126, post");
  const hash = (s) => crypto.createHash("sha256").update(s, "utf8").digest("base64");
  const strange = path.join(folder, "strange.html");
  fs.writeFileSync(strange, whole.replace(hash(script), hash(other)).replace(script, () => other));
  await b.go("file://" + strange);
  const [saying, why] = await b.run(shown);
  ok(saying === "Do not use this page" && why.includes("another answer than the known one to “explain 11 SHEET”"),
    "a library with another answer is refused", [saying, why]);
  same(await b.run("ask"), null, "and answers nothing");

  await b.go(url);
  const foot = await b.run("document.getElementById('about').textContent");
  ok(/proved library Dizbaral, commit [0-9a-f]{7,}(-dirty)?,.*\d+ known answers were asked/.test(foot),
    "the foot says what the page rests on", foot);
  const requests = b.heard.filter((m) => m.method === "Network.requestWillBeSent").map((m) => m.params.request.url.replace(/#.*/, ""));
  const asked = [...new Set(requests)];
  ok(asked.every((u) => [url, "file://" + spoilt, "file://" + strange].includes(u) || /^(data|about|blob):/.test(u)),
    "asks for nothing but itself", asked);
  ok(!b.heard.some((m) => m.method === "Runtime.exceptionThrown"), "no exception");
}
module.exports = { closed };
