// The library's texts, taken apart at line ends, spaces and commas to be laid out. Their form is in docs/PROGRAMS.md.

const linesIn = (text) => text.split("\n").filter((line) => line !== "");

// 46875 is 46.875 kHz: exact, no digit is rounded away.
function hertz(digits) {
  const n = String(digits), cut = n.length > 6 ? 6 : n.length > 3 ? 3 : 0;
  const rest = cut ? n.slice(-cut).replace(/0+$/, "") : "";
  return n.slice(0, n.length - cut) + (rest ? "." + rest : "") + (cut === 6 ? " MHz" : cut ? " kHz" : " Hz");
}
const inUnits = (text) => text.replace(/\b(\d+) Hz/g, (_, digits) => hertz(digits));
const grouped = (n) => String(n).replace(/\B(?=(\d{3})+$)/g, "\u202f");

// `refused N`, and on the second line its meaning; `sheet: ` or `order: ` before it says what is refused.
function refusalIn(text) {
  const [first = "", second = ""] = linesIn(text), number = /^refused (\d+)$/.exec(first);
  if (!number) return null;
  const of = /^(sheet|order): /.exec(second);
  return { number: Number(number[1]), of: of && of[1], meaning: of ? second.slice(of[0].length) : second };
}

// A line of a setting: its first word, the rest, and the numbers that the picture shows.
function settingIn(line) {
  const colon = line.indexOf(":"), at = colon > 0 ? colon : line.indexOf(" ");
  const rest = line.slice(at + 1).trim(), after = (word) => new RegExp("\\b" + word + " ([^,]*)").exec(rest);
  const hz = /^(\d+) Hz/.exec(rest), from = /from (\w+)/.exec(rest), over = after("divider"), phase = after("phase");
  const pll = /refdiv (\d+), fbdiv (\d+), post dividers (\d+) and (\d+)/.exec(rest);
  const [whole, part] = over ? over[1].split(" + ") : [];
  return {
    key: line.slice(0, at), rest, absent: rest === "absent", hz: hz && hz[1], from: from && from[1], pll: pll && pll.slice(1),
    over: over && (part && !part.startsWith("0/") ? "(" + over[1] + ")" : whole), phase: phase && phase[1],
    range: (after("range") || [])[1], strengths: (after("strengths") || [])[1], startup: (after("startup") || [])[1],
  };
}

// What `explain` says: its refusal, or its settings by their first words.
function explained(reading, hex) {
  const text = ask("explain " + reading + " " + (hex || "-")), refusal = refusalIn(text);
  if (refusal) return { refusal };
  const settings = {};
  for (const line of linesIn(text)) { const s = settingIn(line); settings[s.key] = s; }
  return { settings, chip: settings.chip.rest === "rp235x" ? 1 : 0 };
}

// What `check` says: its refusal, as ordered, or the settings and the clocks that differ.
function checked(reading, hex, order) {
  const text = ask("check " + reading + " " + (hex || "-") + " " + order), refusal = refusalIn(text);
  if (refusal) return { refusal };
  const [first, ...lines] = linesIn(text);
  if (first === "as ordered") return { asOrdered: true };
  if (first !== "differs") return { fault: first };
  const settings = [], clocks = [];
  lines.forEach((line, i) => {
    const clock = /^clock (\w+): delivered (.*), ordered (.*)$/.exec(line);
    if (clock) return clocks.push({ key: clock[1], delivered: clock[2], ordered: clock[3] });
    if (/^\s/.test(line)) return;
    const side = (j) => settingIn(lines[j].replace(/^\s*\w+: /, ""));
    settings.push({ name: line, delivered: side(i + 1), ordered: side(i + 2) });
  });
  return { settings, clocks };
}

// A line of `steps`: POSITION BYTES KIND NAME: FIELDS; WHAT IT DOES, or POSITION BYTES no step.
function stepIn(line) {
  const [at, hex] = line.split(" ", 2), rest = line.slice(at.length + hex.length + 2);
  if (rest === "no step") return { hex, none: true };
  const kind = rest.split(" ", 1)[0], [name, does = ""] = rest.slice(kind.length + 1).split("; ");
  const fields = name.includes(": ") ? name.split(": ")[1].split(", ").map((f) => f.split(" ")) : [];
  return { hex, kind: Number(kind), name, does, fields };
}

// The steps of a file, at most so many. `steps` stops where the bytes are no step; what follows is asked for again, after a
// step that tells the same chip.
const isMarked = (hex) => /^\S+ \S+ 38 /.test(ask("steps " + (hex.slice(0, 16) || "-")));
function stepsOf(hex, most) {
  const all = [], lead = isMarked(hex) ? hex.slice(0, 16) : "1000000000000000";
  while (16 * all.length < hex.length && all.length < most) {
    const rest = hex.slice(16 * all.length, 16 * most), before = all.length;
    const lines = before ? linesIn(ask("steps " + lead + rest)).slice(1) : linesIn(ask("steps " + rest));
    for (const line of lines) all.push(stepIn(line));
    if (all.length === before) break;
  }
  return all;
}
