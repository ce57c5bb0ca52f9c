// The clock tree of a sheet: sources on the left, clocks on the right, by the datasheet's names. What it shows are the
// settings that `explain` says; what is marked are the settings and clocks that `check` names.
const SOURCES = ["rosc", "xosc", "pll_sys", "pll_usb"], CLOCKS = ["ref", "sys", "peri", "usb", "adc", "rtc"];
const NAME = { rosc: "ROSC", xosc: "XOSC", pll_sys: "PLL_SYS", pll_usb: "PLL_USB",
  ...Object.fromEntries(CLOCKS.map((c) => [c, "clk_" + c])) };
const ABOUT = { rosc: "ring oscillator", xosc: "crystal", ref: "reference", sys: "system", peri: "peripherals", usb: "USB",
  adc: "ADC", rtc: "real-time clock" };
const MAY = Object.fromEntries(CLOCKS.map((c) => [c, c === "ref" ? ["rosc", "xosc", "pll_usb"] : SOURCES])); // what a clock can run from

// Where things are: with room for two columns, or under each other.
function treeLayout(wide) {
  const box = wide
    ? { rosc: [0, 12, 330, 66], xosc: [0, 112, 330, 66], pll_sys: [44, 212, 286, 110], pll_usb: [44, 352, 286, 110] }
    : { rosc: [78, 12, 288, 66], xosc: [78, 94, 288, 66], pll_sys: [78, 176, 288, 110], pll_usb: [78, 302, 288, 110] };
  CLOCKS.forEach((c, i) => { box[c] = wide ? [548, 12 + i * 77, 412, 65] : [78, 440 + i * 81, 288, 65]; });
  const mid = (k) => box[k][1] + box[k][3] / 2;
  return {
    box, mid, wide, width: wide ? 974 : 382, height: wide ? 472 : 918,
    rail: wide ? { rosc: 398, xosc: 428, pll_sys: 458, pll_usb: 488 } : { rosc: 8, xosc: 23, pll_sys: 38, pll_usb: 53 },
    out: (k) => (wide ? [box[k][0] + box[k][2], mid(k)] : [box[k][0], k.startsWith("pll") ? box[k][1] + 86 : mid(k)]),
  };
}

const arrow = (x, y, key, down) => g("path", { class: "d " + key, d: down ? `M${x - 6} ${y - 9} L${x + 6} ${y - 9} L${x} ${y} Z`
  : `M${x - 9} ${y - 6} L${x - 9} ${y + 6} L${x} ${y} Z` });

// Thin lines for what a clock could run from, thick ones for what it does run from.
function wiresOf(settings, { box, mid, wide, rail, out }) {
  const thin = [], thick = [], there = (k) => !settings[k].absent, plls = ["pll_sys", "pll_usb"].filter(there);
  const along = (s, ys) => { const [x, y] = out(s);
    return `M${x} ${y} H${rail[s]} M${rail[s]} ${Math.min(y, ...ys)} V${Math.max(y, ...ys)}`; };
  for (const s of SOURCES.filter(there)) {
    thin.push(g("path", { class: "rail", d: along(s, CLOCKS.filter((c) => MAY[c].includes(s) && there(c)).map(mid)) }));
    const taps = CLOCKS.filter((c) => settings[c].from === s).map((c) => [box[c][0], mid(c)]);
    if (!wide && s === "xosc") for (const pll of plls) taps.push([box[pll][0], box[pll][1] + 24]);
    if (!taps.length) continue;
    const d = along(s, taps.map((t) => t[1])) + " " + taps.map((t) => `M${rail[s]} ${t[1]} H${t[0] - 6}`).join(" ");
    thick.push(g("path", { class: wide ? "halo" : "halo thin", d: d.replace(/^M[^M]*/, "") }), g("path", { class: "w " + s, d }));
    for (const t of taps) thick.push(g("circle", { class: "d " + s, cx: rail[s], cy: t[1], r: 5.5 }), arrow(t[0], t[1], s));
  }
  if (wide) for (const pll of plls) thick.unshift(g("path", { class: "w xosc",
    d: `M22 ${box.xosc[1] + box.xosc[3]} V${mid(pll)} H${box[pll][0] - 6}` }), arrow(box[pll][0], mid(pll), "xosc"));
  for (const [a, b] of [["ref", "sys"], ["sys", "peri"]]) {
    if (settings[b].from !== a) continue;
    const x = box[b][0] + 24;
    thick.push(g("path", { class: "w " + a, d: `M${x} ${box[a][1] + box[a][3]} V${box[b][1] - 6}` }), arrow(x, box[b][1], a, true));
  }
  return [g("g", {}, ...thin), g("g", {}, ...thick)];
}

// A text that is drawn narrower where it would leave its room.
function drawn(x, y, size, text, { cls, anchor, weight, room } = {}) {
  const e = g("text", { x, y, "font-size": size, class: cls, "text-anchor": anchor, "font-weight": weight }, text);
  if (room && text.length * size * 0.58 > room) { e.setAttribute("textLength", room); e.setAttribute("lengthAdjust", "spacingAndGlyphs"); }
  return e;
}

// The second line of a box.
function boxDetail(s, strengths) {
  if (s.absent) return "";
  if (s.pll) return `÷ ${s.pll[0]} × ${s.pll[1]} ÷ ${s.pll[2]} ÷ ${s.pll[3]}`;
  if (s.range) return s.range + " range, ÷ " + s.over + (strengths || /[1-9]/.test(s.strengths)
    ? ", strengths " + s.strengths.replace(/ /g, "") : "");
  if (s.startup) return "startup " + s.startup.replace(" x ", " × ");
  return "from " + (NAME[s.from] || s.from) + (s.over ? " ÷ " + s.over : "") + (s.phase > 0 ? ", phase " + s.phase : "");
}

// What was ordered, in a box that differs.
function boxOrdered(s, mark) {
  const was = mark && mark.ordered;
  if (!was) return "";
  if (was.absent || was.hz === "0") return "not ordered";
  const strengths = was.strengths !== s.strengths, other = boxDetail(was, strengths);
  return "ordered " + hertz(was.hz) + (mark.how === "differs" && (s.absent || (!s.pll && boxDetail(s, strengths) !== other))
    ? " " + other : "");
}

// The four dividers of a PLL and its VCO, under its name.
function dividersOf(s, mark, crystal, [x, y, w]) {
  const was = mark && mark.how === "differs" && mark.ordered.pll, parts = [];
  const at = [[x + 12, 44, "÷ ", "refdiv"], [x + 62, 56, "× ", "fbdiv"], [x + w - 84, 34, "÷ ", "post 1"],
    [x + w - 46, 34, "÷ ", "post 2"]];
  at.forEach(([px, pw, how, name], i) => {
    const other = was && was[i] !== s.pll[i], mid = px + pw / 2;
    parts.push(g("rect", { class: other ? "b differs" : "pill", x: px, y: y + 55, width: pw, height: 25, rx: 12 }),
      drawn(mid, y + 72.5, 15, how + s.pll[i], { anchor: "middle", weight: 600, room: pw - 5 }),
      drawn(mid, y + 98, other ? 12.5 : 11.5, other ? "≠ " + was[i] : name, { cls: other ? "t-mark" : "t-soft", anchor: "middle" }));
  });
  const mid = x + (w + 34) / 2, vco = vcoOf(crystal.hz, s.pll[0], s.pll[1]);
  parts.push(drawn(mid, y + 72.5, 13, vco ? hertz(vco) : "", { anchor: "middle", room: 78 }),
    drawn(mid, y + 98, 11.5, "VCO", { cls: "t-soft", anchor: "middle" }));
  return parts;
}

function boxOf(key, told, mark, place) {
  const [x, y, w, h] = place, s = told.settings[key], how = mark && mark.how, ghost = s.absent ? "t-ghost" : undefined;
  const right = s.absent ? (key === "rtc" && told.chip ? "not on this chip" : "absent") : hertz(s.hz);
  const title = g("text", { x: x + 14, y: y + 25, class: ghost }, g("tspan", { "font-size": 17, "font-weight": 700 }, NAME[key]));
  const room = w - 44 - 10.6 * NAME[key].length - (s.absent ? 8.4 : 12) * right.length;
  if (ABOUT[key] && room > 7.6 * ABOUT[key].length) title.append(g("tspan", { "font-size": 13, dx: 8, class: ghost || "t-soft" },
    ABOUT[key]));
  const parts = [g("rect", { class: "b" + (s.absent ? " absent" : "") + (how ? " " + how : ""), x, y, width: w, height: h, rx: 9 }), title,
    drawn(x + w - (how ? 22 : 14), y + 26, s.absent ? 14 : 19, right, { cls: ghost, anchor: "end", weight: s.absent ? 400 : 700 })];
  if (how) {
    const hollow = how === "follows";
    parts.push(g("circle", { class: "badge" + (hollow ? " hollow" : ""), cx: x + w - 3, cy: y + 3, r: 11 }),
      drawn(x + w - 3, y + 8.5, 15, hollow ? "↳" : "≠", { cls: hollow ? "t-mark" : "t-card", anchor: "middle" }));
  }
  const was = boxOrdered(s, mark);
  if (was) parts.push(drawn(x + 14, y + (s.pll ? 44 : s.absent ? 47 : 58), 12.5, was, { cls: "t-mark", room: w - 28 }));
  if (s.pll) return [...parts, ...dividersOf(s, mark, told.settings.xosc, place)];
  const strengths = mark && mark.ordered && mark.ordered.strengths !== s.strengths;
  return s.absent ? parts : [...parts, drawn(x + 14, y + (was ? 43 : 48), 14, boxDetail(s, strengths), { cls: "t-soft", room: w - 28 })];
}

function treeOf(told, marks, wide) {
  const layout = treeLayout(wide), { settings } = told;
  const label = "Clock tree. " + [...SOURCES, ...CLOCKS].map((k) => {
    const was = boxOrdered(settings[k], marks[k]);
    return NAME[k] + ": " + inUnits(settings[k].rest) + (was ? ", " + was : "");
  }).join("; ");
  return g("svg", { viewBox: `-2 0 ${layout.width} ${layout.height}`, class: wide ? "wide" : "narrow", role: "img", "aria-label": label },
    ...wiresOf(settings, layout), g("g", {}, ...[...SOURCES, ...CLOCKS].flatMap((k) => boxOf(k, told, marks[k], layout.box[k]))));
}
