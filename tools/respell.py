#!/usr/bin/env python3
"""Spells the repository's own definitions and lemmas as today's Rattle spells names.

usage: python3 tools/respell.py        at the top of the repository, once, after port.py of the kit

Words are in snake case; a record's fields too. A dash stays where it joins two names, as in `below-above`: where each
part is a definition of this repository or a word of the library. Types and modules keep their camel case, and functions of
src/ their names. A name that would fall together with another keeps its dash, and is listed.
Goes over specs/, proofs/, the clauses of src/, the must-fail edits, and names between backticks in documents.
"""

import glob
import os
import re

NAME = r"[^\s(){}.;,@\"«»`]+"
DECLARED = re.compile(r"^(\s*)(?:pub |abbrev |unfoldable )*(record |data )?(" + NAME + r")((?: \{[^{}\n]*\})*) :(?:\s|$)")
# Words of the library that lemmas' names join.
WORDS = set(
    "append take drop length map flat_map min max add sub mul div set get get_or replicate reverse zero suc nil cons head tail"
    " all any count sum words lower upper table nth pred concat member filter pow le lt eq and or not leb ltb eqb".split()
)
# Names that would fall together with another name, or with a parameter of src/.
OTHERS = {"leftBy": "left_of", "operationWords": "words_of_operation"}


def files():
    found = glob.glob("crates/*/specs/**/*.antt", recursive=True) + glob.glob("crates/*/proofs/**/*.antt", recursive=True)
    return sorted(found)


def generated(path):
    """A function's proof: its declarations answer goals, whose names the check gives."""
    return os.path.basename(path) in ("Proof.antt", "Answers.antt", "Invariants.antt")


def snake(word):
    if not re.match(r"[a-z]", word):
        return word
    return re.sub(r"(?<=[a-z0-9])[A-Z]+", lambda m: "_" + m[0].lower(), word)


def declarations(paths):
    names, fields, defined = {}, set(), set()
    for p in paths:
        inside = None
        for line in open(p, encoding="utf-8"):
            if re.match(r"^(?:pub |abbrev )*record ", line):
                inside = "record"
            elif re.match(r"^\S", line):
                inside = None
            m = DECLARED.match(line)
            if not m or line.lstrip().startswith(("--", "let ", "λ")):
                continue
            indent, kind, name = m[1], m[2], m[3]
            if kind or not re.match(r"[a-z]", name):
                continue
            if generated(p):
                continue
            names.setdefault(name, set()).add(p)
            if inside == "record" and indent:
                fields.add(name)
            elif not indent and "/specs/" in p:
                defined.add(name)
    return names, fields, defined


def plan(names, fields, defined):
    known = {snake(n).replace("-", "_") for n in defined} | WORDS
    known |= {n for n in defined}
    turned = {}
    for name in sorted(names):
        parts = [snake(q) for q in name.split("-")]
        if name in fields:
            new = "_".join(parts)
        else:
            new = parts[0]
            for a, b in zip(parts, parts[1:]):
                new += ("-" if a in known and b in known and not b.isdigit() else "_") + b
        new = OTHERS.get(name, new)
        if new != name:
            turned[name] = new
    kept = {n for n in names if n not in turned}
    taken, together = {}, []
    for name in sorted(turned, key=lambda n: (n not in defined, "-" in n, n)):
        new = turned[name]
        if new in kept or new in taken:
            together.append((name, new))
            other = "-".join(snake(q) for q in name.split("-"))
            if other == name or other in kept or other in taken or "-" not in other:
                del turned[name]
                kept.add(name)
                continue
            turned[name] = new = other
        taken[new] = name
    return turned, together


def turn_antt(text, turned, fields, local, proof):
    """Names in antt's text: whole words, in comments only between backticks."""
    out = []
    for line in text.split("\n"):
        code, comment = line, ""
        at = re.search(r"(?:^|\s)--(?:\s|$)", line)
        if at:
            code, comment = line[: at.start()], line[at.start() :]
        def one(m):
            dot, name = m[1], m[2]
            if name not in turned or name in local:
                return m[0]
            if dot and proof and name not in fields:
                return m[0]
            return dot + turned[name]
        code = re.sub(r"(\.?)(" + NAME + r")", one, code)
        out.append(code + turn_ticks(comment, turned))
    return "\n".join(out)


def turn_ticks(text, turned):
    def quoted(m):
        return re.sub(NAME, lambda n: turned.get(n[0], n[0]), m[0])
    return re.sub(r"`[^`\n]+`", quoted, text)


def turn_rust(text, turned):
    """Names in a source: its ghost imports and clauses; in comments between backticks."""
    out = []
    for line in text.split("\n"):
        at = re.search(r"(?<![:\"])//", line)
        code, comment = (line[: at.start()], line[at.start() :]) if at else (line, "")
        code = re.sub(NAME, lambda n: turned.get(n[0], n[0]), code)
        out.append(code + turn_ticks(comment, turned))
    return "\n".join(out)


def rewrite(path, text, new):
    if new != text:
        with open(path, "w", encoding="utf-8") as f:
            f.write(new)


def turn_texts(paths, turned, fields):
    for p in paths:
        text = open(p, encoding="utf-8").read()
        local = set()
        if generated(p):
            local = {m[3] for m in map(DECLARED.match, text.split("\n")) if m and not m[1]}
        rewrite(p, text, turn_antt(text, turned, fields, local, generated(p)))


def turn_sources(turned):
    """The sources; says where a new name is also a parameter's, a field's or an item's, which would hide it."""
    for p in glob.glob("crates/*/src/**/*.rt", recursive=True):
        text = open(p, encoding="utf-8").read()
        rewrite(p, text, turn_rust(text, turned))
        for new in set(turned.values()):
            item = r"\b(?:const|static|type|mod) " + re.escape(new) + r"\b|[(,\s]" + re.escape(new) + r": [&\[\w]"
            if re.search(item, text):
                print(f"look: {p} has a parameter, field or item {new}")


def turn_edits(turned, fields):
    for p in glob.glob("crates/*/must-fail/*.edit"):
        text = open(p, encoding="utf-8").read()
        lines = []
        for line in text.split("\n"):
            if line.startswith(("old:", "new:")):
                lines.append(line[:4] + turn_antt(line[4:], turned, fields, set(), False))
            else:
                lines.append(turn_ticks(line, turned) if not line.startswith("file:") else line)
        rewrite(p, text, "\n".join(lines))


def turn_documents(turned):
    for p in glob.glob("*.md") + glob.glob("docs/**/*.md", recursive=True) + glob.glob("crates/**/*.md", recursive=True):
        if os.path.basename(p) != "PORT.md":
            text = open(p, encoding="utf-8").read()
            rewrite(p, text, turn_ticks(text, turned))


def main():
    paths = files()
    names, fields, defined = declarations(paths)
    turned, together = plan(names, fields, defined)
    for name, new in together:
        print(f"falls together: {name} with {new}: {turned.get(name, name)}")
    turn_texts(paths, turned, fields)
    turn_sources(turned)
    turn_edits(turned, fields)
    turn_documents(turned)
    print(f"{len(turned)} names respelled, {len(names)} declared")


if __name__ == "__main__":
    main()
