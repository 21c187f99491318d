"""What the checks read: the crates, and the names that their files bring in and use."""

import re
import sys
from pathlib import Path

ROOT = next(folder for folder in Path(__file__).resolve().parents if (folder / "crates.txt").is_file())
CRATES = ROOT / "crates"

# `use PATH.{A, B as C}` or `use PATH as A`, of proofs and definitions and, with `ghost`, of code.
USE = re.compile(r"^(?:ghost )?use (?P<path>[^\s;{]+?)(?:\.\{(?P<names>[^}]*)\})?(?: as (?P<alias>[^\s;]+))?;?$")
# A module of a crate, as that crate and any other name it: Rattle.mask.specs.Join.
MODULE = re.compile(r"Rattle\.(?P<crate>[a-z0-9_]+)\.(?P<part>specs|proofs)\.(?P<path>[^\s;,(){}]+)")
# A word of a definition or a contract: letters, digits and what names have beside them.
WORD = re.compile(r"[^\s(){}\[\].;,]+")


def dependencies():
    """The crates of crates.txt, each with those that it names; a kind may stand after a crate's name."""
    lines = (line.split("#")[0].strip() for line in (ROOT / "crates.txt").read_text().splitlines())
    pairs = (line.split(":") for line in lines if line)
    return {name.split()[0]: deps.split() for name, deps in pairs}


def is_made(path):
    """Whether a build wrote a file: in a crate's out/, or in a target/."""
    return not {"out", "target"}.isdisjoint(path.relative_to(ROOT).parts)


def files(crate, pattern):
    return sorted(path for path in (CRATES / crate).glob(pattern) if not is_made(path))


def shown(path):
    return str(path.relative_to(ROOT))


def code(path):
    """The text without its comments; every line keeps its number."""
    mark = "//" if path.suffix == ".rt" else "--"
    kept = (re.sub(rf"(^|\s){mark}.*", "", line) for line in path.read_text().splitlines())
    return "\n".join(kept)


def uses(text):
    """Of each `use` line the path and the names that it brings, each as the file calls it and as it is called at home.

    A module that is brought whole has one name, with None for its name at home."""
    for line in text.splitlines():
        found = USE.match(line)
        if not found:
            continue
        if found["names"] is None:
            path = found["path"]
            yield path, {found["alias"] or path.split(".")[-1]: None}
        else:
            names = (part.split(" as ") for part in found["names"].split(","))
            yield found["path"], {part[-1].strip(): part[0].strip() for part in names if part[0].strip()}


def without_uses(text):
    return "\n".join("" if USE.match(line) else line for line in text.splitlines())


def report(name, offences, kept):
    """Prints the offences and ends with status 1, or says what is kept."""
    for offence in offences:
        print(f"{name}: {offence}")
    print(f"{name}: {len(offences)} offences" if offences else f"{name}: {kept}")
    sys.exit(1 if offences else 0)
