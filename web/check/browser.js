// A headless chromium, driven over its debugging pipe. No package of node is needed.
"use strict";
const { spawn } = require("child_process");
const fs = require("fs"), os = require("os"), path = require("path");

const FLAGS = ["--headless=new", "--no-sandbox", "--disable-gpu", "--hide-scrollbars", "--no-first-run", "--disable-background-networking"];
// Runs before the page's own script: keeps every error, and every request that the page's policy refused.
const KEEP_ERRORS = `window.errors = [];
  addEventListener("error", (e) => errors.push(String(e.message)));
  addEventListener("unhandledrejection", (e) => errors.push(String(e.reason)));
  addEventListener("securitypolicyviolation", (e) => errors.push("policy " + e.violatedDirective + " " + e.blockedURI));`;
const pause = (ms) => new Promise((done) => setTimeout(done, ms));

// Sends a command and waits for its answer; events go to `heard`.
function connection(child) {
  const waiting = new Map(), heard = [];
  let next = 1, text = "", session;
  child.stdio[4].on("data", (data) => {
    text += data;
    for (let at; (at = text.indexOf("\0")) >= 0; text = text.slice(at + 1)) {
      const message = JSON.parse(text.slice(0, at)), wait = waiting.get(message.id);
      waiting.delete(message.id);
      if (!wait) heard.push(message);
      else if (message.error) wait.no(new Error(message.error.message));
      else wait.yes(message.result);
    }
  });
  const send = (method, params = {}) => new Promise((yes, no) => {
    waiting.set(next, { yes, no });
    child.stdio[3].write(JSON.stringify({ id: next++, method, params, ...(session ? { sessionId: session } : {}) }) + "\0");
  });
  return { send, heard, use: (id) => { session = id; } };
}

async function open() {
  const profile = fs.mkdtempSync(path.join(os.tmpdir(), "dizbaral-page-"));
  const flags = [...FLAGS, "--user-data-dir=" + profile, "--remote-debugging-pipe", "about:blank"];
  const child = spawn(process.env.CHROMIUM || "chromium", flags, { stdio: ["ignore", "ignore", "ignore", "pipe", "pipe"] });
  const { send, heard, use } = connection(child);
  const { targetInfos } = await send("Target.getTargets");
  const { targetId } = targetInfos.find((t) => t.type === "page");
  use((await send("Target.attachToTarget", { targetId, flatten: true })).sessionId);
  for (const domain of ["Page", "Runtime", "DOM", "Network", "Log", "Accessibility"]) await send(domain + ".enable");
  await send("Page.addScriptToEvaluateOnNewDocument", { source: KEEP_ERRORS });

  const run = async (code) => {
    const { result, exceptionDetails } = await send("Runtime.evaluate", { expression: code, awaitPromise: true, returnByValue: true });
    if (exceptionDetails) throw new Error(code.slice(0, 200) + ": " + JSON.stringify(exceptionDetails.exception || exceptionDetails));
    return result.value;
  };
  const wait = async (code, ms = 60000) => {
    for (const end = Date.now() + ms; !(await run(code));
      await pause(15)) if (Date.now() > end) throw new Error("waited in vain for " + code);
  };
  const pdf = async () => Buffer.from((await send("Page.printToPDF", { preferCSSPageSize: true, printBackground: true })).data, "base64");
  return {
    send, heard, run, wait, pdf, pause,
    // opens an address, and waits until the library is open or refused
    go: async (url) => {
      await send("Page.navigate", { url: "about:blank" });
      await send("Page.navigate", { url });
      await wait("document.readyState === 'complete' && !!document.getElementById('saying')");
      await wait("document.getElementById('saying').textContent !== 'Opening …'");
    },
    size: (width, height, scale = 1, mobile = false) => send("Emulation.setDeviceMetricsOverride",
      { width, height, deviceScaleFactor: scale, mobile }),
    scheme: (value) => send("Emulation.setEmulatedMedia", { features: [{ name: "prefers-color-scheme", value }] }),
    // gives a file to the field of this name, and waits until it is read
    file: async (which, file) => {
      const { root } = await send("DOM.getDocument");
      const { nodeId } = await send("DOM.querySelector", { nodeId: root.nodeId, selector: `#${which}-file` });
      await run(`document.getElementById('${which}-name').textContent = '…'`);
      await send("DOM.setFileInputFiles", { nodeId, files: [file] });
      await wait(`document.getElementById('${which}-name').textContent !== '…'`);
    },
    // sets a field as one who types or chooses does
    type: (id, value) => run(`{ const e = document.getElementById('${id}');
      e.value = ${JSON.stringify(value)};
      e.dispatchEvent(new Event('input', { bubbles: true })); }`),
    choose: (way) => run(`document.querySelector('input[name=way][value=${way}]').click()`),
    key: async (key, code, modifiers = 0) => {
      for (const type of ["keyDown", "keyUp"]) await send("Input.dispatchKeyEvent",
        { type, key, code: code || key, windowsVirtualKeyCode: { Tab: 9, " ": 32 }[key] || 0, modifiers,
        ...(type === "keyDown" && key.length === 1 ? { text: key } : {}) });
    },
    shot: async (file, [x, y, width, height]) => {
      const { data } = await send("Page.captureScreenshot", { format: "png", captureBeyondViewport: true,
        clip: { x, y, width, height, scale: 1 } });
      fs.writeFileSync(file, Buffer.from(data, "base64"));
    },
    close: async () => {
      const gone = new Promise((done) => child.on("exit", done));
      await send("Browser.close").catch(() => {});
      await gone;
      fs.rmSync(profile, { recursive: true, force: true });
    },
  };
}
module.exports = { open };
