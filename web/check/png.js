// A PNG picture again with a palette of its most frequent colours, which makes it small.
"use strict";
const zlib = require("zlib");

function crc(bytes) {
  let c = ~0;
  for (const b of bytes) {
    c ^= b;
    for (let k = 0; k < 8; k++) c = c & 1 ? (c >>> 1) ^ 0xedb88320 : c >>> 1;
  }
  return ~c >>> 0;
}
function chunk(type, data) {
  const body = Buffer.concat([Buffer.from(type, "latin1"), data]), out = Buffer.alloc(body.length + 8);
  out.writeUInt32BE(data.length, 0);
  body.copy(out, 4);
  out.writeUInt32BE(crc(body), body.length + 4);
  return out;
}

// Width, height and the pixels as numbers 0xRRGGBB, of a PNG with 8 bits a channel and no interlace, as chromium writes it.
function pixelsOf(png) {
  const width = png.readUInt32BE(16), height = png.readUInt32BE(20), channels = png[25] === 6 ? 4 : 3, parts = [];
  for (let at = 8; at < png.length; at += 12 + png.readUInt32BE(at)) {
    if (png.toString("latin1", at + 4, at + 8) === "IDAT") parts.push(png.subarray(at + 8, at + 8 + png.readUInt32BE(at)));
  }
  const raw = zlib.inflateSync(Buffer.concat(parts)), row = width * channels, pixels = new Uint32Array(width * height);
  let above = new Uint8Array(row);
  for (let y = 0; y < height; y++) {
    const filter = raw[y * (row + 1)], line = new Uint8Array(row);
    for (let i = 0; i < row; i++) {
      const left = i < channels ? 0 : line[i - channels], up = above[i], corner = i < channels ? 0 : above[i - channels];
      const [a, b, c] = [left, up, corner].map((v) => Math.abs(left + up - corner - v));
      const paeth = a <= b && a <= c ? left : b <= c ? up : corner;
      line[i] = raw[y * (row + 1) + 1 + i] + [0, left, up, (left + up) >> 1, paeth][filter];
    }
    for (let x = 0; x < width;
      x++) pixels[y * width + x] = (line[x * channels] << 16) | (line[x * channels + 1] << 8) | line[x * channels + 2];
    above = line;
  }
  return { width, height, pixels };
}

function withPalette(png, colours = 64) {
  const { width, height, pixels } = pixelsOf(png), count = new Map(), nearest = new Map();
  for (const p of pixels) count.set(p, (count.get(p) || 0) + 1);
  const palette = [...count].sort((a, b) => b[1] - a[1] || a[0] - b[0]).slice(0, colours).map(([p]) => p);
  const far = (p, q) => [16, 8, 0].reduce((sum, k) => sum + (((p >> k) & 255) - ((q >> k) & 255)) ** 2, 0);
  const place = (p) => {
    if (!nearest.has(p)) nearest.set(p, palette.reduce((best, q, i) => (far(p, q) < far(p, palette[best]) ? i : best), 0));
    return nearest.get(p);
  };
  const raw = Buffer.alloc(height * (width + 1)), head = Buffer.alloc(13);
  for (let y = 0; y < height; y++) for (let x = 0; x < width; x++) raw[y * (width + 1) + 1 + x] = place(pixels[y * width + x]);
  head.writeUInt32BE(width, 0);
  head.writeUInt32BE(height, 4);
  head.set([8, 3, 0, 0, 0], 8);
  const table = Buffer.from(palette.flatMap((p) => [p >> 16, (p >> 8) & 255, p & 255]));
  return Buffer.concat([png.subarray(0, 8), chunk("IHDR", head), chunk("PLTE", table),
    chunk("IDAT", zlib.deflateSync(raw, { level: 9 })), chunk("IEND", Buffer.alloc(0))]);
}
module.exports = { withPalette };
