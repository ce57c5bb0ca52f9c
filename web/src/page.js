// What the page shows for the file, the reading and the order that it was given.
const given = { delivered: null, order: null };

function verdict(kind, saying, ...why) {
  $("verdict").className = kind;
  $("sign").replaceChildren(sign(kind));
  $("saying").textContent = saying;
  $("why").replaceChildren(...why.filter(Boolean));
  document.title = saying + " · Clock sheet check";
}
function facts(pairs) {
  const shown = pairs.filter(([, text]) => text);
  $("facts").replaceChildren(...shown.map(([term, text]) => el("div", {}, el("dt", {}, term), el("dd", {}, text))));
}
const bullets = (texts) => (texts.length ? el("ul", {}, ...texts.map((t) => el("li", {}, t))) : null);

// Delivered and ordered side by side, a row for each setting; and the clocks that run at another frequency.
function differencesTable(settings) {
  const head = el("tr", {}, el("td", {}), el("th", { scope: "col" }, "delivered"), el("th", { scope: "col" }, "ordered"));
  const rows = settings.map((s) => el("tr", {}, el("th", { scope: "row" }, s.name),
    el("td", { "data-of": "delivered" }, inUnits(s.delivered.rest)),
    el("td", { "data-of": "ordered", class: "was" }, inUnits(s.ordered.rest))));
  return el("table", { class: "apart" }, el("thead", {}, head), el("tbody", {}, ...rows));
}
function clocksSaid(clocks) {
  if (!clocks.length) return null;
  const said = (c) => " " + inUnits(c.delivered) + ", ordered " + inUnits(c.ordered);
  return el("p", { class: "clocks" }, "Other frequencies: ", ...clocks.map((c) => el("span", {}, el("b", {}, NAME[c.key]), said(c))));
}

// The marks of the picture and of the settings: a setting that differs, and a clock that only follows.
function marksOf(differences) {
  const marks = {};
  if (!differences) return marks;
  for (const c of differences.clocks) marks[c.key] = { how: "follows", ordered: settingIn(c.key + " " + c.ordered) };
  for (const s of differences.settings) marks[s.delivered.key] = { how: "differs", ordered: s.ordered };
  return marks;
}

function settingRow(s, mark) {
  const how = mark ? mark.how : "", form = s.key === "plan" ? "plan" : s.key.includes(" ") ? "long" : "";
  const row = el("div", { class: [how, form, s.absent ? "absent" : ""].filter(Boolean).join(" ") },
    el("span", { class: "m" }, { differs: "≠", follows: "↳" }[how] || ""),
    el("dt", {}, CLOCKS.includes(s.key) ? NAME[s.key] : s.key), el("dd", {}, inUnits(s.rest) || "none"));
  if (how) row.append(el("dd", { class: "was" }, "ordered: " + inUnits(mark.ordered.rest)));
  return row;
}
function showSettings(told, marks) {
  const { settings } = told, hows = Object.values(marks).map((m) => m.how), short = (s) => s.rest.split(",")[0];
  const was = (key) => (marks[key] ? " ≠ ordered " + short(marks[key].ordered) : "");
  $("tree-part").hidden = $("words-part").hidden = false;
  $("tree").replaceChildren(treeOf(told, marks, true), treeOf(told, marks, false));
  $("tree-of").textContent = "of the delivered file · " + CHIPS[told.chip] + was("chip")
    + ", core voltage " + short(settings.voltage) + was("voltage");
  $("legend").textContent = (hows.includes("differs") ? "≠ and a dashed frame: another setting than ordered. " : "")
    + (hows.includes("follows") ? "↳ and a dotted frame: its setting is as ordered, its frequency is not." : "");
  $("words").replaceChildren(...Object.values(settings).map((s) => settingRow(s, marks[s.key])));
}

// The hint under the reading: its voltage, as the library says it.
function readingSaid(chip, reading) {
  if (reading === null || reading === undefined) return "the voltage code that the board’s regulator holds";
  const voltage = voltageOf(chip, reading);
  return voltage ? `${voltage} on the ${CHIPS[chip]}` : `no voltage of the ${CHIPS[chip]} has this code`;
}

// The verdict of bytes that are no sheet at this reading.
function refused(delivered, reading, chip, ordered, { number, meaning }) {
  if (number === 18) return verdict("bad", `Refused 18: no reading of the ${CHIPS[chip]}`, p(meaning));
  const saying = delivered.bytes > SHEET_BYTES ? "The file is too long" : "Not a sheet";
  return verdict("bad", `${saying}: refused ${number}`, p(meaning + " Do not ship it."), bullets(hints(delivered, reading, chip, ordered)));
}

// The verdict of a sheet. Answers what differs, where something does.
function compared(delivered, reading, told, order, ordered) {
  const clock = p(`${CHIPS[told.chip]}, ${NAME.sys} at ${hertz(told.settings.sys.hz)}.`);
  if (!order) return verdict("warn", "A sheet. What was ordered?", clock, p("Give the order to compare it."));
  if (order.fault) return verdict("warn", "A sheet, but the order is not complete", p(order.fault), clock);
  const { refusal, fault, asOrdered = false, settings, clocks } = checked(reading, delivered.hex, order.words);
  if (fault) return verdict("warn", "A sheet, but the order cannot be read", p(fault), clock);
  if (refusal) return verdict("warn", `A sheet, but the order is refused with ${refusal.number}`, p(refusal.meaning), clock);
  if (asOrdered !== (delivered.hex === ordered)) {
    return verdict("bad", "Do not use this page", p("Two answers of its library disagree. This is no fault of the file."));
  }
  if (asOrdered) {
    const all = `All ${delivered.bytes} bytes are those of the ordered sheet at reading ${reading}: every setting is as ordered.`;
    return verdict("good", "As ordered", p(all));
  }
  const count = settings.length === 1 ? "one setting" : settings.length + " settings";
  verdict("differs", "Differs from the order in " + count, differencesTable(settings), clocksSaid(clocks));
  return { settings, clocks };
}

// What is known of file and order before the verdict.
function fileFacts(delivered) {
  const steps = delivered.bytes % 8 || delivered.bytes > SHEET_BYTES ? "" : ", " + counted(delivered.bytes / 8, "step");
  return [["File", delivered.name], ["Size", delivered.bad ? "" : counted(delivered.bytes, "byte") + ", " + delivered.form + steps]];
}
function orderFacts(order) {
  const margin = order && order.margin ? marginOf(...order.margin) : null;
  return [["Ordered", order ? order.saying : ""],
    ["Same dividers", margin ? `for any system clock from ${grouped(margin.from)} to ${grouped(margin.to)} Hz` : ""]];
}

function look() {
  if (!ask) return;
  showFields();
  for (const id of ["tree-part", "words-part", "steps-part", "record"]) $(id).hidden = true;
  const { delivered } = given, reading = fieldNumber("reading", NUMBER.reading), order = orderGiven(given.order);
  remember(given.order);
  const chip = delivered && !delivered.bad ? (isMarked(delivered.hex) ? 1 : 0) : Number($("chip").value);
  $("reading-about").textContent = readingSaid(chip, reading);
  const known = [...(delivered ? fileFacts(delivered) : []), ...orderFacts(order)];
  facts(known);
  if (!delivered) return verdict("none", "Drop the board house’s file to begin", order && order.fault ? p(order.fault) : null);
  if (delivered.bad) return verdict("bad", delivered.bad, p(delivered.why));
  if (reading === null) return verdict("none", "Give the regulator’s reading", p("What the bytes mean depends on it."));
  if (reading === undefined) return verdict("none", "The reading is a number", p("The RP2040 has 0 to 15, the RP235x 0 to 31."));

  const at = new Date().toLocaleString("en-GB", { dateStyle: "medium", timeStyle: "short" });
  facts([...known, ["Reading", `${reading}, ${$("reading-about").textContent}`], ["Looked at", at]]);
  $("record").hidden = false;
  const told = explained(reading, delivered.hex), ordered = order && !order.fault ? orderedSheet(order.words, reading) : null;
  if (told.refusal) refused(delivered, reading, chip, ordered, told.refusal);
  else showSettings(told, marksOf(compared(delivered, reading, told, order, ordered)));
  showSteps(delivered, told.refusal && told.refusal.number === 18 ? null : ordered);
}
