// The few cases of docs/CASES.md that this page asks beside the commands.
const CHIPS = ["RP2040", "RP235x"], SHEET_BYTES = 528;

// The bytes of an answer `LENGTH HEX`, or the refusal.
function writtenIn(text) {
  const words = linesIn(text)[0].split(" ");
  return /^\d+$/.test(words[0]) && words.length === 2 ? { hex: words[1] } : { refusal: refusalIn(text), text };
}
function sheetOfPlan(chip, plan, reading) {
  return writtenIn(ask(`sheet ${reading} ${SHEET_BYTES} ${chip} ${plan.join(" ")}`));
}
function sheetOfPreset(chip, [name, ...numbers], reading) {
  const text = ask([name, ...(name === "manual" ? [] : [chip]), ...numbers].join(" ")), refusal = refusalIn(text);
  return refusal ? { refusal } : sheetOfPlan(chip, linesIn(text)[0].split(" ").slice(1), reading);
}

// The ordered sheet in hex, to be shown beside the delivered one; null where there is none.
function orderedSheet(order, reading) {
  const words = order.split(" "), chip = words[0] === "rp235x" ? 1 : 0, rest = words.slice(chip);
  if (rest.length === 1 && /^([0-9a-f]{2})+$/.test(rest[0])) return rest[0];
  const made = rest[0] === "plan" ? sheetOfPlan(chip, rest.slice(1), reading) : sheetOfPreset(chip, rest, reading);
  return made.hex || null;
}

// The targets with the same PLL dividers as this one.
function marginOf(crystal, target) {
  const words = linesIn(ask(`margin ${crystal} ${target}`))[0].split(" "), none = (w) => w === "4294967296";
  if (words.length !== 2 || words[0] === "refused") return null;
  return { from: none(words[0]) ? 0 : Number(words[0]) + 1, to: none(words[1]) ? 4294967295 : Number(words[1]) - 1 };
}

// The VCO of a PLL: its output with both post dividers 1.
const vcoOf = (crystal, refdiv, fbdiv) => (/^\d+$/m.exec(ask(`output ${crystal} ${refdiv} ${fbdiv} 1 1`)) || [null])[0];

// The voltage of a code as the library says it of a plan with this code; null where no voltage has it.
function voltageOf(chip, code) {
  const preset = sheetOfPreset(chip, ["crystal", 12000000], 11);
  const plan = explained(11, preset.hex).settings.plan.rest.split(" ");
  plan[25] = code;
  const { hex } = sheetOfPlan(chip, plan, code);
  return hex ? explained(code, hex).settings.voltage.rest.split(",")[0] : null;
}
