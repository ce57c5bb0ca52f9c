// The proved library: a line of text in, a text out. Everything that this page says of a sheet comes from it.
const ROOM = 1 << 17; // bytes lent for an answer; the longest is `steps` of 2048 bytes, about 30 KB
let ask = null; // until the library is open and its known answers are right

async function inflated(base64) {
  const packed = Uint8Array.from(atob(base64), (c) => c.charCodeAt(0));
  const plain = new Blob([packed]).stream().pipeThrough(new DecompressionStream("deflate-raw"));
  return new Response(plain).arrayBuffer();
}

// The one function that the library exports: dizbaral_answer(line, its length, out, its length) gives the length of the answer.
async function openLibrary() {
  const { instance } = await WebAssembly.instantiate(await inflated(WASM));
  const { dizbaral_answer, memory, __heap_base } = instance.exports;
  const out = (__heap_base.value + 15) & ~15, line = out + ROOM, end = line + 16384;
  if (memory.buffer.byteLength < end) memory.grow(Math.ceil((end - memory.buffer.byteLength) / 65536));
  const encoder = new TextEncoder(), decoder = new TextDecoder();
  return (text) => {
    const bytes = encoder.encode(text);
    if (bytes.length > end - line) throw new Error("a question of " + bytes.length + " bytes");
    new Uint8Array(memory.buffer, line, bytes.length).set(bytes);
    const length = dizbaral_answer(line, BigInt(bytes.length), out, BigInt(ROOM));
    return decoder.decode(new Uint8Array(memory.buffer, out, Number(length)).slice());
  };
}

// Opens the library and asks for the answers of web/known.txt. A library that gives another one is not used.
async function openKnown() {
  const opened = await openLibrary();
  for (const [line, answer] of KNOWN) {
    if (opened(line.replace("SHEET", SHEET)) !== answer) throw new Error("another answer than the known one to “" + line + "”");
  }
  ask = opened;
}
