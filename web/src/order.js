// Reading and order: from the fields of the page into the words that `check` takes, and into the address, so that a bookmark
// brings a product's back.
const FIELDS = ["reading", "chip", "crystal", "system", "preset", "refdiv", "fbdiv", "post1", "post2", "code", "plan"];
const USED = { // the fields of each way to order, and of each preset
  frequency: ["chip", "crystal", "system"], preset: ["chip", "preset"], plan: ["chip", "plan"], file: [],
  crystal: ["crystal"], rosc: [], default: [], manual: ["crystal", "refdiv", "fbdiv", "post1", "post2", "code"],
};
const wayChosen = () => document.querySelector("input[name=way]:checked").value;
const fieldsUsed = (way) => [...USED[way], ...(way === "preset" ? USED[$("preset").value] : [])];

// A field's number, null where it is empty, undefined where it is none. Marks the field.
function fieldNumber(id, from) {
  const text = $(id).value.trim(), number = text === "" ? null : from(text);
  const bad = number === undefined;
  $(id).classList.toggle("bad", bad);
  $(id).setAttribute("aria-invalid", bad);
  return number;
}
const upTo = (most) => (text) => (/^\d{1,10}$/.test(text) && Number(text) <= most ? Number(text) : undefined);
function fromMegahertz(text) {
  const m = /^(\d{1,4})(?:[.,](\d{0,6}))?$/.exec(text), hz = m ? Number(m[1]) * 1e6 + Number((m[2] || "").padEnd(6, "0")) : Infinity;
  return hz <= 4294967295 ? hz : undefined;
}
const NUMBER = {
  reading: upTo(255), crystal: fromMegahertz, system: fromMegahertz,
  refdiv: upTo(255), fbdiv: upTo(65535), post1: upTo(255), post2: upTo(255), code: upTo(255),
};
const LABEL = {
  crystal: "crystal", system: "system clock", refdiv: "refdiv", fbdiv: "fbdiv", post1: "post 1", post2: "post 2", code: "voltage code",
};

// An order is its words for `check` and its saying for people, or what is wrong with it; null where it is not given.
function orderGiven(other) {
  const way = wayChosen(), chip = Number($("chip").value);
  return way === "file" ? orderByFile(other) : way === "plan" ? orderByPlan(chip) : orderByFields(way, chip);
}
function orderByFile(other) {
  if (!other) return null;
  if (other.bad) return { saying: other.name, fault: `The ordered file cannot be read. ${other.bad}. ${other.why}` };
  return { saying: "as in " + other.name, words: other.hex };
}
function orderByPlan(chip) {
  const numbers = $("plan").value.trim().replace(/^plan\s+/, "").split(/[\s,]+/).filter(Boolean), count = chip ? 43 : 48;
  if (!numbers.length) return null;
  const odd = numbers.find((n) => !/^\d{1,10}$/.test(n));
  const many = `A plan of the ${CHIPS[chip]} has ${count} numbers; these are ${numbers.length}.`;
  const fault = odd ? `“${odd}” is no number.` : numbers.length !== count ? many : undefined, words = "plan " + numbers.join(" ");
  $("plan").classList.toggle("bad", !!fault);
  return { saying: CHIPS[chip] + ", " + words, fault, words: (chip ? "rp235x " : "") + words };
}
function orderByFields(way, chip) {
  const ids = fieldsUsed(way).filter((id) => NUMBER[id]), values = ids.map((id) => fieldNumber(id, NUMBER[id]));
  if (values.includes(null)) return null;
  const inMegahertz = (id) => NUMBER[id] === fromMegahertz, odd = ids.find((id, i) => values[i] === undefined);
  const wanted = odd && inMegahertz(odd) ? "in MHz, with up to six decimals" : "as a number that fits";
  if (odd) return { saying: "", fault: `Give the ${LABEL[odd]} ${wanted}.` };
  const said = ids.map((id, i) => LABEL[id] + " " + (inMegahertz(id) ? hertz(values[i]) : values[i]));
  const name = way === "frequency" ? "system_from" : $("preset").value;
  if (chip && name === "manual") return { saying: "", fault: "The preset manual_pll is the RP2040’s alone." };
  const preset = way === "frequency" ? [] : ["preset " + $("preset").selectedOptions[0].textContent];
  return {
    saying: [CHIPS[chip], ...preset, ...said].join(", "), words: [(chip ? "rp235x " : "") + name, ...values].join(" "),
    margin: way === "frequency" ? values : null,
  };
}

// Shows the fields of the chosen way, and hides the others.
function showFields() {
  const way = wayChosen(), used = fieldsUsed(way);
  for (const label of document.querySelectorAll("#by-fields [data-field]")) label.hidden = !used.includes(label.dataset.field);
  $("by-fields").hidden = way === "file";
  $("order-drop").hidden = way !== "file";
}

function remember(other) {
  const way = wayChosen(), words = new URLSearchParams();
  for (const id of ["reading", ...fieldsUsed(way)]) { const v = $(id).value.trim(); if (v) words.set(id, v); }
  if (way !== "frequency") words.set("order", way);
  if (way === "file" && other && !other.bad) { words.set("name", other.name); words.set("sheet", other.hex); }
  try { history.replaceState(null, "", "#" + words); } catch { /* an address that may not change */ }
}
// Answers the file that the address orders by, if it does.
function recall() {
  const words = new URLSearchParams(location.hash.slice(1));
  for (const id of FIELDS) if (words.has(id)) $(id).value = words.get(id);
  for (const id of ["chip", "preset"]) if (!$(id).value) $(id).selectedIndex = 0;
  if (words.get("chip") === "rp235x") $("chip").value = "1"; // the word that a person would write
  const way = document.querySelector(`input[name=way][value="${CSS.escape(words.get("order") || "frequency")}"]`);
  if (way) way.checked = true;
  return words.has("sheet") ? { name: words.get("name") || "the address", ...cut(fromHex(words.get("sheet"))) } : null;
}
