#!/usr/bin/env python3
"""Respells the project's own names for the Rattle of docs/PORT.md, after port.py. Run it once, at the top of the repository.

Words (definitions, fields, constructors, locals) of antt become snake case, also the part of a lemma's name that is a word:
`settingsOf` becomes `settings_of`, `length-bytesOf` becomes `length-bytes_of`. The dash that joins the parts of a lemma's name
stays, as in the library. A constant is spelled as in the datasheet: `CLK-ADC-CTRL` becomes `CLK_ADC_CTRL`. Definitions of
specs/ whose name had a dash lose it, since they are words. Types and modules are in camel case already.

It reads .antt files, .rt files outside strings (their code has no such name), must-fail edits and the papers' code spans. Strings
stay. It ends with status 1 and changes nothing where two names would fall together in a file.
"""
import glob
import re
import sys

TOKEN = re.compile(r'[^\s(){}.;,@"«»`\[\]|]+')
STRING = re.compile(r'b?"(?:[^"\\]|\\.)*"')
DECLARED = re.compile(r"^\s*(?:(?:abbrev|unfoldable|pub|data|record)\s+)*([^\s:(){}.,]+)(?:\s*\{[^}]*\})*\s+:\s")
# Lemmas and a parameter that a word would meet, each with its file; port.py had spelled the lemmas as words.
APART = [
    ("crates/bring_up/proofs/Wait.antt", "one_more", "one-more"),
    ("crates/trial/proofs/Bounds.antt", "one_more", "one-more"),
    ("crates/step/proofs/Laws.antt", "step_in", "step-in"),
    ("crates/runner/proofs/Ready.antt", "ready_at", "ready-at"),
    ("crates/step_words/proofs/Named.antt", "name_in", "name-in"),
    ("crates/refusals/src/lib.rt", "pll_hz: u32) -> bool", "known_hz: u32) -> bool"),
    ("crates/refusals/src/lib.rt", "→ pll_hz ≡", "→ known_hz ≡"),
    ("crates/refusals/src/lib.rt", "OptionPll::Some(_) => pll_hz == 0", "OptionPll::Some(_) => known_hz == 0"),
]
# A lemma that stays as it is: the word of that name is in crates that this one does not use.
STAYS = {"up-to": "crates/meanings/"}


def antt(root):
    return sorted(glob.glob(f"{root}/crates/*/specs/**/*.antt", recursive=True) + glob.glob(f"{root}/crates/*/proofs/**/*.antt", recursive=True))


def code_of(text):
    return "\n".join(re.sub(r"--.*", "", line) for line in text.split("\n"))


def is_camel(token):
    return re.match(r"^[a-z]", token) and re.search(r"[a-z0-9][A-Z]", token)


def snake(token):
    return re.sub(r"(?<=[a-z0-9])[A-Z]+", lambda m: "_" + m[0].lower(), token)


def names(root):
    """The names that change, each with its new spelling."""
    new = {}
    for path in antt(root):
        text = code_of(open(path).read())
        for token in TOKEN.findall(text):
            bare = token.rstrip("'₀₁₂₃")
            if is_camel(bare):
                new[bare] = snake(bare)
        for line in text.split("\n"):
            m = DECLARED.match(line)
            if not m or "-" not in m[1]:
                continue
            if re.fullmatch(r"[A-Z][A-Z0-9-]*", m[1]) or "/specs/" in path:
                new[m[1]] = m[1].replace("-", "_")
    return new


def part(path, new):
    return {old: it for old, it in new.items() if not (old in STAYS and STAYS[old] in path)}


def turn(text, new):
    def word(m):
        bare = m[0].rstrip("'₀₁₂₃")
        if bare in new:
            return new[bare] + m[0][len(bare):]
        return m[0]

    return TOKEN.sub(word, text)


def outside_strings(text, new):
    out, at = [], 0
    for m in STRING.finditer(text):
        out += [turn(text[at:m.start()], new), m[0]]
        at = m.end()
    return "".join(out) + turn(text[at:], new)


def meet(root, new):
    """Places where a new spelling is there already beside the old one."""
    bad = []
    for path in antt(root) + sorted(glob.glob(f"{root}/crates/*/src/**/*.rt", recursive=True)):
        text = code_of(open(path).read()) if path.endswith(".antt") else "\n".join(re.sub(r"//.*", "", l) for l in STRING.sub('""', open(path).read()).split("\n"))
        tokens = {t.rstrip("'₀₁₂₃") for t in TOKEN.findall(text)}
        for old in tokens:
            if old in new and new[old] in tokens:
                bad.append((path[len(root) + 1:], old, new[old]))
    by = {}
    for old, it in new.items():
        by.setdefault(it, []).append(old)
    return bad, {k: v for k, v in by.items() if len(v) > 1}


def spans(text, new):
    return re.sub(r"`[^`\n]+`", lambda m: turn(m[0], new), text)


def main():
    root = "."
    for path, old, it in APART:
        text = open(path).read()
        if "--meet" not in sys.argv:
            if old not in text:
                raise SystemExit(f"{path}: no {old}")
            open(path, "w").write(text.replace(old, it))
    new = names(root)
    bad, twice = meet(root, new)
    if "--meet" in sys.argv:
        for row in bad:
            print(*row)
        print(twice)
        return 0
    for path in antt(root) + sorted(glob.glob(f"{root}/crates/*/src/**/*.rt", recursive=True)) + sorted(glob.glob(f"{root}/crates/*/must-fail/*.edit")):
        text = first = open(path).read()
        if path.endswith("/Proof.antt"):
            name = path.split("/")[-2].lstrip("+")
            text = re.sub(rf"(?<![\w.-]){re.escape(name.replace('_', '-'))}-spec(?![\w-])", name + "_spec", text)
        it = text if path.endswith(".edit") and "file: src/" in text and "'" in text else outside_strings(text, part(path, new))
        if it != first:
            open(path, "w").write(it)
    for path in sorted(glob.glob(f"{root}/*.md") + glob.glob(f"{root}/docs/*.md") + glob.glob(f"{root}/*/README.md") + glob.glob(f"{root}/bindings/*/README.md")):
        text = open(path).read()
        it = spans(text, new)
        if it != text:
            open(path, "w").write(it)
    print(f"{len(new)} names respelled")
    return 0


raise SystemExit(main())
