#!/usr/bin/env python3
"""Brings the repository's own definitions and lemmas to snake case: `mostHeld` and `meets-turn` become `most_held` and `meets_turn`.

usage: tools/snake_names.py [--list]     at the top of a repository that port.py has turned; --list only prints old and new names

Names are those that a file of specs/ or a lemma file of proofs/ declares: definitions, lemmas, fields of records, constructors. Types,
modules, names of src/, strings, inputs and outputs stay. In the proofs of a function a name with a dash is turned only where the file
imports it, or as a field, since the names that the check makes have dashes too. The lines `old:` and `new:` of must-fail edits follow.
"""
import os
import re
import sys

WORD = re.compile(r"[^\s(){}\[\];,.:\"\u231c\u231d\\|+*/<>=&!`]+")
DECLARED = re.compile(r"^\s*(?:abbrev\s+)?(?:unfoldable\s+)?(?:pub\s+)?(?:abbrev\s+)?(?:unfoldable\s+)?([^\s(){};,.:]+)\s+:\s")
SET = re.compile(r"^\s*(?:pub\s+)?(?:ruleset)\s+([^\s(){};,.:]+)")
USE = re.compile(r"^\s*(?:ghost\s+)?use\s+([^\s{]+)\.\{([^}]*)\}")
MADE = re.compile(r"\.(Statement|Tie|Given|Goals|Reads|Lts)$")


def snake(name):
    name = re.sub(r"([a-z0-9])([A-Z])", r"\1_\2", name).lower() if re.search(r"[a-z0-9][A-Z]", name) else name
    return name.replace("-", "_")


# Where the new spelling of a definition is a lemma's name already, or the other way round, the lemma gets `_lem`.
LEMMAS = {"all_digits": "all_digits_lem", "number_is": "number_is_lem", "size_is": "size_is_lem", "written_back": "written_back_lem", "too_many": "too_many_lem"}


def wants(name):
    return name[0].islower() and ("-" in name or re.search(r"[a-z0-9][A-Z]", name) is not None)


def of_function(path):
    return path.count("/") > 3 and path.split("/")[2] == "proofs"


def files(ends):
    for folder, dirs, names in os.walk("crates"):
        dirs[:] = sorted(d for d in dirs if d != "out")
        for n in sorted(names):
            if n.endswith(ends):
                yield os.path.join(folder, n)


def declared():
    names = {}
    for p in files(".antt"):
        if of_function(p):
            continue
        for line in open(p, encoding="utf-8"):
            for m in (DECLARED.match(line), SET.match(line)):
                if m and wants(m.group(1)):
                    names.setdefault(m.group(1), []).append(p)
    return names


def fields():
    """Fields of records that have a dash."""
    out = set()
    for p in files(".antt"):
        if of_function(p):
            continue
        inside = False
        for line in open(p, encoding="utf-8"):
            if re.match(r"\s*(?:pub\s+)?record\s", line):
                inside = True
            elif line[:1].strip():
                inside = False
            m = DECLARED.match(line)
            if inside and m and "-" in m.group(1):
                out.add(m.group(1))
    return out


def library():
    """Names that a file imports from a library: they keep their spelling."""
    out = set()
    for p in files((".antt", ".rt")):
        for line in open(p, encoding="utf-8"):
            m = USE.match(line)
            if m and not re.match(r"Rattle\.(?!std\b)\w+\.(specs|proofs)", m.group(1)):
                out |= {w.strip().split(" as ")[0] for w in m.group(2).split(",")}
    return out


def turned(text, names, path, parts):
    made = of_function(path)
    own = set()
    if made:
        for line in text.split("\n"):
            m = USE.match(line)
            if m and not MADE.search(m.group(1)):
                own |= {w.strip() for w in m.group(2).split(",")}

    def one(line):
        if line.lstrip().startswith(("--", "//")) or (path.endswith(".edit") and line.startswith("file:")):
            return re.sub(r"[A-Za-z][\w]*", lambda m: names.get(m.group(0), m.group(0)) if "-" not in m.group(0) else m.group(0), line)

        def word(m):
            w = m.group(0)
            if w not in names:
                return w
            if made and "-" in w and w not in own:
                part = w in parts and (line[: m.start()].endswith(".") or line[m.end() :].startswith(" ="))
                return names[w] if part else w
            if path.endswith(".rt") and "-" in w and "ghost use" not in line:
                return w
            return names[w]

        return WORD.sub(word, line)

    return "\n".join(one(l) for l in text.split("\n"))


def main():
    found = declared()
    kept = library()
    names = {n: snake(n) for n in found if n not in kept}
    definitions = {s for n, s in names.items() if "-" not in n} | {"is_number", "at_most"}
    names = {n: s + "_lem" if "-" in n and s in definitions else s for n, s in names.items()}
    names.update(LEMMAS)
    parts = fields()
    everything = {}
    for n, s in names.items():
        everything.setdefault(s, set()).add(n)
    for s, ns in sorted(everything.items()):
        if len(ns) > 1:
            print("fall together:", s, sorted(ns), file=sys.stderr)
    for n in sorted(set(found) & kept):
        print("also a library's, kept:", n, file=sys.stderr)
    if "--list" in sys.argv:
        for n in sorted(names):
            print(n, names[n])
        return
    for p in list(files((".antt", ".rt", ".edit"))):
        text = open(p, encoding="utf-8").read()
        new = turned(text, names, p, parts)
        if new != text:
            open(p, "w", encoding="utf-8").write(new)


main()
