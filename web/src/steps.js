// The list of steps: those of the delivered file, beside the ordered ones where they differ.

// Two rows of steps side by side: the longest common row first, then pairs of one kind.
function aligned(delivered, ordered) {
  const n = delivered.length, m = ordered.length, same = (i, j) => delivered[i].hex === ordered[j].hex;
  const common = Array.from({ length: n + 1 }, () => new Uint16Array(m + 1));
  for (let i = n - 1; i >= 0; i--) for (let j = m - 1; j >= 0; j--) common[i][j] = same(i, j) ? common[i + 1][j + 1] + 1
    : Math.max(common[i + 1][j], common[i][j + 1]);
  const rows = [];
  for (let i = 0, j = 0; i < n || j < m;) {
    if (i < n && j < m && same(i, j)) { rows.push({ i: i++, j: j++ }); continue; }
    const more = [], lacking = [];
    while ((i < n || j < m) && !(i < n && j < m && same(i, j))) {
      if (j >= m || (i < n && common[i + 1][j] >= common[i][j + 1])) more.push(i++);
      else lacking.push(j++);
    }
    rows.push(...paired(more, lacking, delivered, ordered));
  }
  return rows;
}
function paired(more, lacking, delivered, ordered) {
  if (more.length === lacking.length) return more.map((i, k) => ({ i, j: lacking[k], differs: true }));
  const rows = [];
  let k = 0;
  for (const i of more) {
    const hit = lacking.findIndex((j, at) => at >= k && !delivered[i].none && ordered[j].kind === delivered[i].kind);
    if (hit < 0) { rows.push({ i }); continue; }
    while (k < hit) rows.push({ j: lacking[k++] });
    rows.push({ i, j: lacking[k++], differs: true });
  }
  while (k < lacking.length) rows.push({ j: lacking[k++] });
  return rows;
}

// The row of a step. `how` is its class, `mark` its sign, `other` the bytes whose digits it is compared with.
function stepRow(s, at, how, mark, other) {
  const hex = el("code", { class: "hex" }, ...[...s.hex].map((c, k) => (other && other[k] !== c ? el("u", {}, c) : c)));
  const name = s.none ? (s.hex.length < 16 ? `no step: ${s.hex.length / 2} of 8 bytes` : "no step") : inUnits(s.name);
  return el("li", { class: s.none ? "none" : how }, el("span", { class: "m" }, s.none ? "✕" : mark),
    el("span", { class: "n" }, String(at)), hex,
    el("span", { class: "k" }, s.none ? "" : String(s.kind)),
      el("span", { class: "name" }, how === "lacks" ? el("em", {}, "ordered: ") : "", name), el("span", { class: "does" }, s.does));
}

// Of a file that is far too long only the start is shown, and compared with nothing.
function showSteps(delivered, ordered) {
  const long = delivered.bytes > SHEET_BYTES, steps = stepsOf(delivered.hex, long ? 12 : 66),
    want = ordered && !long ? stepsOf(ordered, 66) : null;
  const rows = want ? aligned(steps, want) : steps.map((_, i) => ({ i, j: i })), list = [];
  for (const r of rows) {
    if (r.i === undefined) list.push(stepRow(want[r.j], "", "lacks", "−"));
    else if (r.differs) list.push(stepRow(steps[r.i], r.i, "differs", "≠", want[r.j].hex),
      stepRow(want[r.j], "", "lacks", "", steps[r.i].hex));
    else list.push(stepRow(steps[r.i], r.i, r.j === undefined ? "more" : "", r.j === undefined ? "+" : ""));
  }
  const other = rows.filter((r) => r.differs || r.i === undefined || r.j === undefined).length;
  $("steps").replaceChildren(...list);
  $("steps-part").hidden = !steps.length;
  $("steps-of").textContent = other
    ? `${other} ${other === 1 ? "differs" : "differ"} from the order: ≠ other, + not ordered, − missing` : "";
  const rest = delivered.bytes - 8 * steps.length;
  $("steps-more").textContent = rest > 0 ? `… and ${counted(rest, "byte")} more that are not shown: a sheet has at most 66 steps.` : "";
  // on paper, with very many differences, the delivered steps alone are shown, so that it stays one page
  document.body.classList.toggle("many", other > 30);
  const printed = other > 30 ? list.filter((li) => !li.classList.contains("lacks")).length : list.length;
  document.body.classList.toggle("dense", printed + 2 * document.querySelectorAll("#why tr, #why li").length > 72);
}
