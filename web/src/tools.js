// Elements of the page, made from text alone: no text ever becomes markup.
const $ = (id) => document.getElementById(id);
const SVG = "http://www.w3.org/2000/svg";
function made(element, attributes, inside) {
  for (const k in attributes) if (attributes[k] !== undefined && attributes[k] !== "") element.setAttribute(k, attributes[k]);
  element.append(...inside.filter((x) => x !== null && x !== undefined && x !== ""));
  return element;
}
const el = (tag, attributes, ...inside) => made(document.createElement(tag), attributes, inside);
const g = (tag, attributes, ...inside) => made(document.createElementNS(SVG, tag), attributes, inside);
const p = (...inside) => el("p", {}, ...inside);
const listed = (names) => (names.length < 2 ? names.join("") : names.slice(0, -1).join(", ") + " and " + names[names.length - 1]);
const counted = (n, one, many = one + "s") => grouped(n) + " " + (n === 1 ? one : many);

// 0 to 10, 12 to 15
function ranges(numbers) {
  const runs = [];
  for (const n of numbers) {
    const last = runs[runs.length - 1];
    if (last && last[1] === n - 1) last[1] = n;
    else runs.push([n, n]);
  }
  return listed(runs.map(([a, b]) => (a === b ? String(a) : a + " to " + b)));
}

// The sign of a verdict, beside its colour and its frame.
const SIGNS = {
  good: "M10 23 L19 32 L35 13", bad: "M12 12 L32 32 M32 12 L12 32", differs: "M9 17 H35 M9 28 H35 M30 8 L14 37",
  warn: "M22 9 V26 M22 33 V35", none: "M22 10 V32 M13 24 L22 33 L31 24",
};
function sign(kind) {
  const line = { fill: "none", stroke: "currentColor" };
  return g("svg", { viewBox: "0 0 44 44" }, g("circle", { cx: 22, cy: 22, r: 20.5, "stroke-width": 2.5, ...line }),
    g("path", { d: SIGNS[kind], "stroke-width": 4, "stroke-linecap": "round", "stroke-linejoin": "round", ...line }));
}
