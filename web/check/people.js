// For people: names for a screen reader, the order of the keyboard, contrast in light and dark, widths from phone to desktop.
"use strict";
const path = require("path");
const { ok, same } = require("./tally.js");
const { ORDER } = require("./verdicts.js");

// Every field, button and picture has a name, and the verdict is announced.
async function named(b) {
  const { nodes } = await b.send("Accessibility.getFullAXTree"), of = (n, k) => (n[k] && n[k].value) || "";
  const roles = ["textbox", "combobox", "radio", "button", "image", "img", "radiogroup", "form"];
  const asked = nodes.filter((n) => !n.ignored && roles.includes(of(n, "role")));
  const nameless = asked.filter((n) => !of(n, "name")).map((n) => of(n, "role"));
  same(nameless, [], "every field, button and picture has a name");
  ok(asked.length >= 12, "the fields are seen by a screen reader", asked.length);
  const status = nodes.find((n) => !n.ignored && of(n, "role") === "status");
  ok(status, "the verdict is a status, which is announced");
  const tree = nodes.find((n) => !n.ignored && /^(img|image)$/.test(of(n, "role")));
  ok(tree && /clk_sys: 200 MHz from pll_sys.*ordered 133 MHz/.test(of(tree, "name")),
    "the picture is told in words, with what was ordered", tree && of(tree, "name"));
  const page = await b.run(`(() => {
    const heads = [...document.querySelectorAll('h1, h2, h3')].map((h) => Number(h.tagName[1]));
    return { lang: document.documentElement.lang, title: document.title, main: document.querySelectorAll('main').length,
      ids: [...document.querySelectorAll('[id]')].map((e) => e.id), jumps: heads.filter((h, i) => i && h > heads[i - 1] + 1).length,
      live: document.getElementById('verdict').getAttribute('aria-live') }; })()`);
  ok(page.lang === "en" && page.main === 1 && page.jumps === 0 && page.live === "polite",
    "language, main part, headings, live region", page);
  ok(page.title.startsWith("Differs from the order"), "the title has the verdict", page.title);
  same(page.ids.length, new Set(page.ids).size, "no id twice");
}

// Tab goes through the fields in the order in which one fills them, and shows where it is.
async function keyboard(b) {
  await b.run("document.activeElement.blur(); window.scrollTo(0, 0)");
  const seen = [];
  for (let i = 0; i < 16; i++) {
    await b.key("Tab");
    seen.push(await b.run("document.activeElement.id || document.activeElement.name || document.activeElement.tagName.toLowerCase()"));
  }
  const wanted = ["delivered-file", "summary", "reading", "way", "chip", "crystal", "system", "batch", "board", "first", "second", "print"];
  same(seen.filter((id) => wanted.includes(id)).slice(0, wanted.length), wanted, "Tab goes from file to print");
  await b.run("document.getElementById('reading').focus()");
  await b.key("Tab");
  ok(await b.run("getComputedStyle(document.activeElement).outlineStyle !== 'none'"), "the focus is seen");
  await b.run("document.querySelector('input[value=preset]').focus()");
  await b.key(" ", "Space");
  const chosen = "[document.querySelector('input[name=way]:checked').value, document.querySelector('[data-field=preset]').hidden]";
  same(await b.run(chosen), ["preset", false], "a way to order is chosen by key");
}

// The contrast of each text with what is behind it, by the rule of WCAG: 4.5 at least, 3 for large text. Texts of the picture are on
// its card, but for the signs on badges.
const CONTRAST = `(() => {
  const rgb = (c) => (/rgba?\\(([^)]*)\\)/.exec(c) || ["", "0, 0, 0, 0"])[1].split(/[ ,/]+/).map(Number);
  const channel = (v) => (v / 255 <= 0.03928 ? v / 255 / 12.92 : ((v / 255 + 0.055) / 1.055) ** 2.4);
  const light = (c) => { const [r, g, b] = rgb(c).map(channel); return 0.2126 * r + 0.7152 * g + 0.0722 * b; };
  const back = (e) => getComputedStyle(e).backgroundColor, clear = (c) => rgb(c).length === 4 && rgb(c)[3] === 0;
  const behind = (e) => (!e ? "rgb(255, 255, 255)" : clear(back(e)) ? behind(e.parentElement) : back(e));
  const written = (e) => [...e.childNodes].some((n) => n.nodeType === 3 && n.textContent.trim()) && e.getClientRects().length;
  const low = [];
  for (const e of [...document.querySelectorAll("body *")].filter(written)) {
    const style = getComputedStyle(e), picture = e.closest("svg");
    if (e.classList.contains("t-card")) continue;
    const a = light(picture ? style.fill : style.color), b = light(behind(picture || e));
    const ratio = (Math.max(a, b) + 0.05) / (Math.min(a, b) + 0.05);
    if (ratio < (parseFloat(style.fontSize) >= 24 ? 3 : 4.5)) low.push([e.tagName, e.textContent.slice(0, 30), ratio.toFixed(2)]);
  }
  return low;
})()`;

async function people(b, url, files) {
  await b.go(url + "#reading=11&crystal=12&system=133");
  await b.file("delivered", path.join(files, "good-200.bin"));
  await named(b);
  await keyboard(b);
  for (const scheme of ["light", "dark"]) {
    await b.scheme(scheme);
    for (const [file, address] of [["good-200.bin", "reading=11&crystal=12&system=133"], ["good-125.bin", ORDER],
      ["bit-no-step.bin", ORDER], ["ring-only.bin", "reading=11&crystal=12"]]) {
      await b.go(url + "#" + address);
      await b.file("delivered", path.join(files, file));
      same(await b.run(CONTRAST), [], `contrast, ${scheme}, ${file}`);
    }
  }
  await b.scheme("light");
  for (const way of ["frequency", "preset", "plan", "file"]) {
    for (const width of [320, 390, 620, 768, 1024, 1440, 2560]) {
      await b.size(width, 800, 1, width < 700);
      await b.go(url + "#reading=11&order=" + way + "&preset=manual");
      await b.file("delivered", path.join(files, "odd-plan.bin"));
      ok((await b.run("document.documentElement.scrollWidth")) <= width, `${way} at ${width} px: nothing sticks out`,
        await b.run("document.documentElement.scrollWidth"));
    }
  }
  await b.size(1180, 900);
}
module.exports = { people };
