// A file's bytes: as they are, or from hex in text. Where it is neither, `bad` says so plainly.
const MOST_BYTES = 4 << 20;
const HEX = Array.from({ length: 256 }, (_, i) => i.toString(16).padStart(2, "0"));
const hexOf = (bytes) => Array.from(bytes, (b) => HEX[b]).join("");
const PICTURES = [["89504e47", "a PNG picture"], ["ffd8ff", "a JPEG picture"], ["47494638", "a GIF picture"], ["424d", "a BMP picture"],
  ["49492a00", "a TIFF picture"], ["4d4d002a", "a TIFF picture"], ["52494646", "a WebP picture or a sound"], ["25504446", "a PDF document"],
  ["504b0304", "a ZIP archive or an office document"], ["1f8b", "a gzip archive"], ["7f454c46", "an ELF program"]];

// The text of a file that is one: UTF-8 with or without a byte order mark, or UTF-16 with one. A sheet is none: it has bytes 0.
function textIn(raw) {
  const wide = raw[0] === 0xff && raw[1] === 0xfe ? "utf-16le" : raw[0] === 0xfe && raw[1] === 0xff ? "utf-16be" : "utf-8";
  const text = new TextDecoder(wide).decode(raw);
  return /[^\t\n\r\x20-\x7e\u00a0-\ufffc]/.test(text) || /\ufffd/.test(text) ? null : text;
}

function fromHex(text) {
  const digits = text.replace(/(^|[\s,;{])0[xX]/g, "$1").replace(/[\s,]+/g, ""), odd = /[^0-9a-fA-F]/.exec(digits);
  if (odd) {
    const before = text.slice(0, text.indexOf(odd[0])).split("\n");
    const why = `The character “${odd[0]}” in line ${before.length} is no hex digit.`;
    return { bad: "It is no hex", why: why + " Between the bytes there may be spaces, line ends, commas and 0x, and nothing else." };
  }
  if (!digits) return { bad: "The file is empty", why: "It has spaces and line ends alone." };
  if (digits.length % 2) return { bad: "Half a byte is missing",
    why: `The file is hex with an odd number of digits, ${grouped(digits.length)}: a byte has two.` };
  return { hex: digits.toLowerCase(), form: "hex" };
}

function decoded(raw) {
  if (!raw.length) return { bad: "The file is empty", why: "It has no bytes." };
  const start = hexOf(raw.subarray(0, 4)), picture = PICTURES.find(([bytes]) => start.startsWith(bytes));
  if (picture) return { bad: "This is no sheet", why: `By its first bytes the file is ${picture[1]}. Was another file meant?` };
  const text = raw.length < MOST_BYTES ? textIn(raw) : null;
  if (text !== null) return fromHex(text);
  return { hex: hexOf(raw.subarray(0, 2048)), form: "binary", bytes: raw.length };
}

async function fileRead(file) {
  const size = grouped(file.size);
  if (file.size > MOST_BYTES) return { name: file.name, bad: "The file is too long",
    why: `It has ${size} bytes and was not opened; a sheet has at most ${SHEET_BYTES}.` };
  try {
    const got = decoded(new Uint8Array(await file.arrayBuffer()));
    return { name: file.name, ...cut(got) };
  } catch {
    return { name: file.name, bad: "The file cannot be opened", why: "The browser could not read it." };
  }
}

// The library takes up to 2048 bytes. What is longer is no sheet whatever it holds, so its start stands for it.
function cut(got) {
  if (got.bad) return got;
  const bytes = got.bytes === undefined ? got.hex.length / 2 : got.bytes;
  return { ...got, bytes, hex: got.hex.slice(0, 4096) };
}
