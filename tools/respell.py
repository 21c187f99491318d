#!/usr/bin/env python3
"""Brings this repository's own definitions and lemmas to snake case: in specs, proofs, contracts, must-fail edits and documents.

usage: python3 tools/respell.py [--list]    at the top of the repository, once, right after the toolchain's port.py

Renamed are the names that specs/ and proofs/ declare: definitions, lemmas, fields, constructors that begin with a small letter, and names
that a `let` binds. Types and modules, functions of src/, names that the toolchain's library declares and names that the toolchain makes
stay as they are. Two names that would fall together are told apart by APART.
"""
import os, re, sys, collections

IDENT = r"[^\s(){}\[\];,.:\"⟨⟩`]+"
WORD = re.compile(r"(?<![\w'\-₀-₉◌≡≤<*+/%^∘])[A-Za-z][\w'\-₀-₉]*(?:[<≤≢=][\w'\-₀-₉]*)?")
# An old name whose snake case another name has already: its own new name.
APART = {
    "all-fit": "all_fit_lem",
    "all_ones": "all_ones_lem",
    "below-meets": "below_meets_lem",
    "bit-and": "bit_of_and",
    "bit-or": "bit_of_or",
    "bit-xor": "bit_of_xor",
    "bounded-held": "bounded_held_lem",
    "effective-sign": "effective_sign_lem",
    "everyCase": "each_case",
    "everyWord": "each_word",
    "guards-of": "guards_of_lem",
    "header-bytes": "header_bytes_lem",
    "held_word": "held_word_lem",
    "is-case": "is_case_lem",
    "nan-bits": "nan_bits_lem",
    "no-case": "nothing_fits",
    "not-closer": "not_closer_lem",
    "number-bytes": "number_bytes_lem",
    "of-bits": "of_bits_lem",
    "record-length": "record_length_lem",
    "row-meets": "row_meets_lem",
    "row_of": "row_of",
    "sign-of": "sign_of_lem",
    "top-bit": "top_bit_lem",
}
# The definition of the rounded result: a clause means what is returned by `result`.
RESULT_HOME = "Rattle.adder.specs.Result"
MADE = re.compile(r"^(?:Need|Goal|invariant-|decreases-|loop-|the-|returns|branch-|if\d|match\d)")


def files(top, ends):
    for folder, dirs, names in os.walk(top):
        dirs[:] = sorted(d for d in dirs if d not in ("out", "target", ".git"))
        for name in sorted(names):
            if name.endswith(ends):
                yield os.path.join(folder, name)


def snake(name):
    """Small words joined by `_`; a capital part, the name of a type, keeps its capital."""
    out = []
    for part in name.split("-"):
        if re.match(r"^[a-z]", part):
            part = re.sub(r"(?<=[a-z0-9])([A-Z])", lambda m: "_" + m.group(1).lower(), part)
        out.append(part)
    return "_".join(p for p in out if p)


def declared(path, names, lets):
    proof = path.endswith("Proof.antt")
    in_block = False
    for line in open(path, encoding="utf-8"):
        if line.strip().startswith("--"):
            continue
        m = re.match(r"^(\s*)((?:pub |abbrev |unfoldable |data |record )*)(" + IDENT + r")((?: (?:\{[^}]*\}|\([^)]*\)|[^\s:=]+))*?) :(?: |$)", line)
        if m:
            name = m.group(3)
            made = proof and (re.search(r": tie\.|statement M", line) or MADE.match(name))
            if not made:
                names.add(name)
        for n in re.findall(r"\blet (" + IDENT + r") [:=]", line) + re.findall(r"\blet (" + IDENT + r") =", line):
            lets.add(n)
        # fields of records and data on one line: `record { below : ..; inside : .. }` declare nothing new


def library(top):
    found = set()
    for path in files(top, (".antt", ".rt")):
        text = open(path, encoding="utf-8").read()
        for module, items in re.findall(r"\buse ([\w.]+)\.\{([^}]*)\}", text):
            if module.startswith("Rattle.") and not module.startswith("Rattle.std") and not module.startswith("Rattle.core"):
                continue
            for it in items.split(","):
                found.update(it.split(" as ")[0].split())
    return found


KNOWN = set()


def word_by_word(text, turn):
    return WORD.sub(lambda m: turn.get(m.group(0), m.group(0)), text)


def respelled(path, text, turn):
    """Prose keeps its words: in comments and documents only what stands between backticks is a name."""
    quoted = lambda t: re.sub(r"`[^`\n]*`", lambda m: word_by_word(m.group(0), turn), t)
    if path.endswith(".md"):
        # port.py has respelled some names in the code alone
        known = dict(turn, **{w: snake(w) for w in set(WORD.findall(text)) if w not in turn and snake(w) in KNOWN and w not in KNOWN and snake(w) != w})
        return re.sub(r"`[^`\n]*`", lambda m: word_by_word(m.group(0), known), text)
    out = []
    mark = "--" if path.endswith(".antt") else "//"
    of_result = re.search(r"use " + re.escape(RESULT_HOME) + r"\.\{[^}]*\bresult\b", text) or path.endswith("crates/adder/specs/Result.antt")
    for line in text.split("\n"):
        if path.endswith(".edit"):
            out.append(word_by_word(line, turn) if line.startswith(("old:", "new:")) else quoted(line))
            continue
        code, dash, comment = line.partition(mark) if line.lstrip().startswith(mark) else (line, "", "")
        if path.endswith("crates/cases/proofs/Fitting.antt"):
            code = re.sub(r"(?<![\w.'\-])result_of(?![\w'\-])", "result_at", code)
        if of_result and (path.endswith(".antt") or code.startswith("ghost use")):
            code = re.sub(r"(?<![\w.'\-])result(?![\w'\-])(?! ↦)", "result_of", code)
        out.append(word_by_word(code, turn) + dash + quoted(comment))
    return "\n".join(out)


def main(argv):
    top = "crates"
    names, lets = set(), set()
    for path in files(top, (".antt",)):
        declared(path, names, lets)
    lib = library(top)
    every = collections.Counter()
    texts = {}
    for path in list(files(top, (".antt", ".rt", ".edit"))) + [p for p in ("README.md", *files("docs", (".md",))) if os.path.exists(p)]:
        texts[path] = open(path, encoding="utf-8").read()
        if path.endswith((".antt",)):
            every.update(set(WORD.findall(texts[path])))
    turn, trouble = {}, []
    for name in sorted(names | lets):
        if not re.match(r"^[a-z]", name) or not WORD.fullmatch(name):
            continue
        new = APART.get(name, snake(name))
        if new == name:
            continue
        if name in lib:
            trouble.append(f"library: {name}")
            continue
        if new in every or new in turn.values():
            trouble.append(f"falls together: {name} -> {new} ({every[new]} files have it)")
        turn[name] = new
    if "--list" in argv:
        print("\n".join(trouble))
        print(len(turn), "names")
        return 0
    KNOWN.update(every, turn.values())
    for path, text in texts.items():
        new = respelled(path, text, turn)
        if new != text:
            with open(path, "w", encoding="utf-8") as f:
                f.write(new)
    print(f"respelled {len(turn)} names")
    return 0


if __name__ == "__main__":
    raise SystemExit(main(sys.argv[1:]))
