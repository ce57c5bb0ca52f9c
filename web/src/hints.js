// Why bytes may have been refused with 26: the nearest reasons that a person can act on. They decide nothing; the refusal
// is the verdict, and whether other bytes or another reading would be a sheet is asked of the library.

const isSheet = (reading, hex) => !refusalIn(ask("explain " + reading + " " + hex));
const readingsOf = (chip) => Array.from({ length: chip ? 32 : 16 }, (_, reading) => reading);
const otherReadings = (hex, chip, reading) => readingsOf(chip).filter((r) => r !== reading && isSheet(r, hex));

// The plan that the steps of a file speak of, in the numbers of docs/CASES.md. Of a step that comes twice the first counts.
function gathered(steps, chip, reading) {
  const find = (kind, w) => steps.find((s) => s.kind === kind && (w === undefined || Number(s.fields[0][1]) === w));
  const field = (s, i) => (s && s.fields[i] ? Number(s.fields[i][1]) : 0), four = (d) => d || 4;
  const stored = (name) => { const s = steps.find((t) => t.kind === 37 && t.fields[0][0] === name); return field(s, 0); };
  const ring = find(9) || find(10) || find(11) || find(12), crystal = find(16) || find(17), hz = stored("xosc");
  const delay = field(find(16), 0), kilohertz = Math.max(1, Math.floor(hz / 1000)), least = Math.ceil((256 * delay - 128) / kilohertz);
  const multiplier = Math.floor((kilohertz * least + 128) / 256) === delay ? least : Math.round((256 * delay) / kilohertz);
  const dividers = (w) => [field(find(20, w), 1), field(find(21, w), 1), field(find(23, w), 1), field(find(23, w), 2)];
  const pll = (w) => (find(21, w) ? [1, ...dividers(w)] : [0, 0, 0, 0, 0]);
  const voltage = find(13) || find(43), settled = voltage && steps[steps.indexOf(voltage) + 1];
  const perMicrosecond = Math.ceil(stored("rosc") / 1e6) || 12;
  const settling = settled && settled.kind === 14 ? Math.ceil(field(settled, 0) / perMicrosecond) : 0;
  const control = steps.filter((s) => s.kind === 28).pop(), divider = find(29) || find(45);
  const strengths = [9, 10].flatMap((k) => [0, 1, 2, 3].map((i) => field(find(k), i)));
  const aux = (d, c) => (find(c) ? [1, field(find(c), 1), four(field(find(d), 0)), field(find(c), 0)] : [0, 0, 0, 0]);
  return [
    ...(ring ? [1, stored("rosc"), field(find(12), 0), ...strengths, field(find(11), 0) - (chip ? 0xaa00 : 0xaa0)] : Array(12).fill(0)),
    ...(crystal ? [1, hz, Math.max(0, multiplier)] : [0, 0, 0]), ...pll(0), ...pll(1),
    voltage ? field(voltage, 0) : reading, 1, settling,
    field(find(25), 0), four(field(find(26), 0)), field(control, 1) ? field(control, 0) + 1 : 0, field(divider, 0), field(divider, 1),
    ...(find(30) ? [1, field(find(30), 0)] : [0, 0]), ...aux(31, 32), ...aux(33, 34),
    ...(chip ? [] : find(36) ? [1, field(find(36), 1), field(find(35), 0), field(find(35), 1), field(find(36), 0)] : [0, 0, 0, 0, 0]),
  ];
}

const stepSaid = (s) => (!s ? "nothing" : s.none ? "bytes that are no step" : "“" + inUnits(s.name) + "”");

// The first step that does not fit the others: of a sheet with the settings that the steps speak of, it is another one.
function misfit(steps, chip, reading) {
  const plan = gathered(steps, chip, reading);
  if (plan.some((n) => !(n >= 0))) return null;
  const sheet = sheetOfPlan(chip, plan, reading);
  if (sheet.refusal) return `The settings that its steps speak of are refused with ${sheet.refusal.number}: ${sheet.refusal.meaning}`;
  if (!sheet.hex) return null;
  const wanted = stepsOf(sheet.hex, 66), at = wanted.findIndex((s, i) => !steps[i] || steps[i].hex !== s.hex);
  if (at < 0) return `Step ${wanted.length} and what follows it come after the end of a sheet with these settings.`;
  return `Step ${at} is the first that does not fit the others: it is ${stepSaid(steps[at])}, `
    + `and a sheet with the other settings has ${stepSaid(wanted[at])} there.`;
}

// The one bit in which two rows of hex of one length differ, as words.
function oneBit(a, b) {
  if (a.length !== b.length) return null;
  const at = [...a].map((c, i) => (c !== b[i] ? i : -1)).filter((i) => i >= 0);
  if (at.length !== 1) return null;
  const bit = Math.log2(parseInt(a[at[0]], 16) ^ parseInt(b[at[0]], 16)), byte = at[0] >> 1;
  if (!Number.isInteger(bit)) return null;
  return `Bit ${bit + (at[0] % 2 ? 0 : 4)} of byte ${byte}, in step ${byte >> 3}, is the only one that differs from the ordered sheet.`;
}

// A length that no sheet has, or that the ordered one does not have.
function lengthHints({ hex, bytes }, ordered) {
  if (bytes > SHEET_BYTES) {
    const start = 2 * bytes > hex.length ? [`Its first ${grouped(hex.length / 2)} bytes were given to the library.`] : [];
    return [`The file has ${grouped(bytes)} bytes; a sheet has at most ${SHEET_BYTES}.`, ...start];
  }
  const all = [], other = ordered ? ordered.length / 2 : bytes;
  const short = `These are the first ${bytes} of the ${other} ordered bytes: the file is cut short.`;
  const long = `The ordered sheet is all there, and ${counted(bytes - other, "byte")} follow it.`;
  if (other > bytes && ordered.startsWith(hex)) all.push(short);
  if (other < bytes && hex.startsWith(ordered)) all.push(long);
  if (bytes % 8) all.push(`The file has ${counted(bytes, "byte")}, which is no whole number of steps: a step has 8.`);
  return all;
}

// A reading at which no sheet of the chip is without a voltage step, and this one is.
function unreadable(steps, chip, reading) {
  if (steps.some((s) => s.kind === 13 || s.kind === 43) || voltageOf(chip, reading)) return null;
  return `Reading ${reading} is the code of no voltage of the ${CHIPS[chip]}: every sheet for it sets the voltage, and this one does not.`;
}

function hints(delivered, reading, chip, ordered) {
  const { hex } = delivered, byLength = lengthHints(delivered, ordered);
  if (byLength.length) return byLength;
  const steps = stepsOf(hex, 66), none = steps.findIndex((s) => s.none), readings = otherReadings(hex, chip, reading);
  const elsewhere = `At another reading, ${ranges(readings)}, the bytes are a sheet. Is ${reading} what this board’s regulator holds?`;
  if (readings.length) return [elsewhere, unreadable(steps, chip, reading)].filter(Boolean);
  const bit = ordered ? oneBit(hex, ordered) : null;
  if (none >= 0) return [`Step ${none}, ${steps[none].hex}, is no step of the ${CHIPS[chip]}.`, bit].filter(Boolean);
  return [unreadable(steps, chip, reading), misfit(steps, chip, reading), bit].filter(Boolean);
}
