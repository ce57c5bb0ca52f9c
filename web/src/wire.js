// Files, fields and keys into the page; and its start.
const EMPTY = { delivered: "Drop it here, or choose it", order: "Drop the ordered sheet, or choose it" };
function put(which, got) {
  given[which] = got;
  $(which + "-name").textContent = got ? got.name : EMPTY[which];
  const about = !got ? "binary, or hex as text" : got.bad ? "cannot be read" : counted(got.bytes, "byte") + ", " + got.form;
  $(which + "-about").textContent = about;
  $(which + "-drop").classList.toggle("full", !!got);
  look();
}
const dropped = async (event, which) => {
  event.preventDefault();
  event.stopPropagation();
  const [file] = event.dataTransfer.files;
  if (file) put(which, await fileRead(file));
};
function wire() {
  for (const which of ["delivered", "order"]) {
    const zone = $(which + "-drop"), input = $(which + "-file");
    input.addEventListener("change", async () => {
      const [file] = input.files;
      if (file) put(which, await fileRead(file));
      input.value = "";
    });
    for (const kind of ["dragenter", "dragover"]) zone.addEventListener(kind, (e) => { e.preventDefault(); zone.classList.add("over"); });
    for (const kind of ["dragleave", "drop"]) zone.addEventListener(kind, () => zone.classList.remove("over"));
    zone.addEventListener("drop", (e) => dropped(e, which));
  }
  // a file that is dropped beside both is the delivered one
  addEventListener("dragover", (e) => e.preventDefault());
  addEventListener("drop", (e) => dropped(e, "delivered"));
  $("pasted").addEventListener("input", () => {
    const text = $("pasted").value;
    put("delivered", text.trim() ? { name: "pasted hex", ...cut(fromHex(text)) } : null);
  });
  $("ask").addEventListener("input", (e) => { if (e.target.id !== "pasted" && e.target.type !== "file") look(); });
  for (const form of ["ask", "record"]) $(form).addEventListener("submit", (e) => e.preventDefault());
  // what the paper shows of the record: what was typed, or a line to write on
  for (const id of ["batch", "board", "first", "second"]) {
    $(id).addEventListener("input", () => { document.querySelector(`[data-paper=${id}]`).textContent = $(id).value; });
  }
  $("print").addEventListener("click", () => print());
  addEventListener("hashchange", () => { given.order = recall(); put("order", given.order); });
}

(async () => {
  wire();
  try {
    await openKnown();
    $("about").textContent = "Verdicts, settings, steps and refusals are the text of the proved library Dizbaral, "
      + `${COMMIT}, as WebAssembly (SHA-256 ${SUM}). ${KNOWN.length} known answers were asked when this page was opened. `
      + "Layout, picture and hints are script.";
    put("order", recall());
  } catch (fault) {
    ask = null;
    verdict("bad", "Do not use this page", p(`The library in it does not work in this browser: ${fault.message}.`));
  }
})();
