#!/usr/bin/env python3
"""Imports the library's words from the library, where a file had them through a Prelude of this repository.

usage: python3 tools/own_words.py      at the top of the repository, once, after respell.py

`rt ci` refuses an operator that comes from a module of the repository: a reader takes it for the library's own.
"""

import glob
import re

OTHERS = {
    "none": "Rattle.std.proofs.Math.Option",
    "some": "Rattle.std.proofs.Math.Option",
    "Option": "Rattle.std.proofs.Math.Option",
    "map as map_option": "Rattle.std.proofs.Math.Option",
    "bind as bind_option": "Rattle.std.proofs.Math.Option",
    "flat_map": "mathlib.Core.List",
    "Memᴰ as Member": "mathlib.Core.List",
    "sub_ℕ": "Rattle.std.proofs.Math.IntN",
}
RENAMED = {"Option·map": "map_option", "Option·bind": "bind_option", "List-as-Memᴰ": "Member"}
PRELUDE = "Rattle.std.specs.Prelude"


ALIASES = {"map_option": "map as map_option", "bind_option": "bind as bind_option", "Member": "Memᴰ as Member"}
FROM_OWN = re.compile(r"^use (Rattle\.(?:model|batches|pages|program)\.specs\.Prelude)\.\{([^}]*)\}\n", re.M)
PASSED_ON = re.compile(r"pub use (?:Rattle\.std\.|mathlib\.)\S*\.\{(.*)\}")


def library_words():
    """What the model's Prelude passes on of the library."""
    words = set(ALIASES)
    for line in open("crates/model/specs/Prelude.antt", encoding="utf-8"):
        m = PASSED_ON.match(line)
        if m:
            words |= {w.strip() for w in m[1].split(",")}
    return words


def renamed(text):
    for a, b in RENAMED.items():
        text = text.replace(" as " + a, " as " + b).replace(a, b)
    return text


def own_prelude(text):
    """The model's Prelude with its own types alone."""
    lines = [l for l in text.split("\n") if not PASSED_ON.match(l) and not l.startswith("-- ")]
    return "-- The types of src/lib.rt that definitions use.\n" + "\n".join(lines)


def without(text, words):
    """The text without imports of the library's words from a Prelude of ours, and these words."""
    taken = []

    def one(m):
        its = [w.strip() for w in m[2].replace("\n", " ").split(",") if w.strip()]
        rest = [w for w in its if w not in words]
        taken.extend(w for w in its if w in words)
        return m[0] if len(rest) == len(its) else f"use {m[1]}.{{{', '.join(rest)}}}\n" if rest else ""

    return FROM_OWN.sub(one, text), taken


def with_library(text, taken, at):
    """The text with the words imported from the library: in a line for their module that is there, or in one at the place."""
    by = {}
    for w in taken:
        full = ALIASES.get(w, w)
        by.setdefault(OTHERS.get(full, PRELUDE), []).append(full)
    new = ""
    for path in sorted(by, key=lambda q: (q != PRELUDE, q)):
        have = re.search(r"^use " + re.escape(path) + r"\.\{([^}]*)\}\n", text, re.M)
        if have:
            its = [w.strip() for w in have[1].split(",")]
            its += [w for w in by[path] if w not in its]
            text = text.replace(have[0], f"use {path}.{{{', '.join(its)}}}\n", 1)
        else:
            new += f"use {path}.{{{', '.join(by[path])}}}\n"
    return text[:at] + new + text[at:]


def main():
    words = library_words()
    for p in sorted(glob.glob("crates/*/specs/**/*.antt", recursive=True) + glob.glob("crates/*/proofs/**/*.antt", recursive=True)):
        old = open(p, encoding="utf-8").read()
        text = renamed(old)
        if p == "crates/model/specs/Prelude.antt":
            text = own_prelude(text)
        else:
            first = FROM_OWN.search(text)
            turned, taken = without(text, words)
            text = with_library(turned, taken, first.start()) if taken else text
        if text != old:
            with open(p, "w", encoding="utf-8") as f:
                f.write(text)


if __name__ == "__main__":
    main()
