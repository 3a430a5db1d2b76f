#!/usr/bin/env python3
"""Counts in src/ what has an older language's form, by the points of docs/DESIGN-PASS.md.

usage: tools/places.py [--list] [POINT ..]     at the top of the repository; --list prints each place too
"""
import collections
import itertools
import os
import re
import sys

FN = re.compile(r"^( *)(?:pub(?:\([a-z]+\))? )?(?:const )?(?:unsafe )?(?:extern \"C\" )?fn (\w+)")


def sources():
    for folder, dirs, names in sorted(os.walk("crates")):
        dirs.sort()
        if "/src" in folder and "/out" not in folder and "/target" not in folder:
            for name in sorted(names):
                if name.endswith(".rt"):
                    path = os.path.join(folder, name)
                    yield path, open(path).read().split("\n")


def functions(lines):
    """(name, first line's number, its lines) of each function."""
    at = 0
    while at < len(lines):
        head = FN.match(lines[at])
        if not head:
            at += 1
            continue
        end = at
        while end < len(lines) - 1 and lines[end] != head.group(1) + "}":
            end += 1
        yield head.group(2), at + 1, lines[at:end + 1]
        at = end + 1


def enums(lines):
    for at, line in enumerate(lines):
        head = re.match(r"^(?:pub )?enum (\w+)", line)
        if head:
            end = at
            while lines[end] != "}":
                end += 1
            body = re.sub(r"//.*", "", "\n".join(lines[at + 1:end]))
            body = re.sub(r"\{[^}]*\}", "{}", body)
            yield head.group(1), at + 1, [v.strip() for v in body.split(",") if v.strip()]


def point1(path, lines):
    # an enum with a value in one variant and a variant without, or Refused/Bad/Outside among its names; the same with two kinds of values
    for name, at, variants in enums(lines):
        full = [v for v in variants if "(" in v or "{" in v]
        bare = [v for v in variants if v not in full]
        failed = [v for v in variants if re.match(r"(Bad|Refused|Outside|Not|Wrong|TooFew|Absent|Accepted|Usage)", v)]
        if (len(full) in (1, 2) and len(variants) <= 4 and (bare or failed)) or (failed and name != "Refusal") or "Accepted" in bare:
            yield at, "enum %s { %s }" % (name, ", ".join(variants))
    for at, line in enumerate(lines):
        # a flag, or a refusal's number, beside other fields
        if re.match(r"^    (?:pub )?\w+: bool,$", line) or re.match(r"^    (?:pub )?(?:number: u32|refusal: Refusal),$", line):
            yield at + 1, line.strip()
        # a refusal where none applies is an answer too
        if re.search(r"\) -> Refusal$", line):
            yield at + 1, line.strip()
        # kinds and files as numbers
        if re.match(r"^ *(?:pub )?const [A-Z_]+: u(?:8|32) = (?:b'.'|\d+);$", line) and re.search(r"(OPEN|ENTER|WITHDRAW|JOIN|WEIGH|REPORT|WRITE|LIST|SHEET|NONE|WRITTEN|ENTERED)", line):
            yield at + 1, line.strip()
        if re.search(r"\b(kind|file|status): u(?:8|16|32)\b", line) and re.search(r"\bfn\b|^    \w+: u", line):
            yield at + 1, line.strip()


def shape(body):
    """A function's text with names, types, numbers and strings made one."""
    text = "\n".join(body[0 if "{" in body[0] else 0:])
    text = re.sub(r"\b(?:requires|ensures)\b[^\n]*\n", "", text)
    text = re.sub(r"//[^\n]*", "", text)
    text = re.sub(r"b?\"[^\"]*\"|b'[^']*'|\b0x[0-9A-F_]+\b|\b\d+\b", "0", text)
    text = re.sub(r"\b(?!fn\b|let\b|mut\b|if\b|else\b|while\b|return\b|match\b|for\b|in\b)[A-Za-z_]\w*(?:::\w+)*", "a", text)
    return re.sub(r"\s+", "", text)


def point2(found):
    groups = collections.defaultdict(list)
    for path, lines in found:
        for name, at, body in functions(lines):
            if len(body) > 5:
                groups[shape(body)].append("%s:%d %s" % (path, at, name))
    for names in groups.values():
        if len(names) > 1:
            yield names


def point3(path, lines):
    for name, at, body in functions(lines):
        for k, line in enumerate(body):
            if re.match(r"^ *(?:'\w+: )?(?:while|loop)\b", line):
                indent = len(line) - len(line.lstrip())
                end = k + 1
                while end < len(body) and not (body[end].startswith(" " * indent + "}")):
                    end += 1
                inside = "\n".join(body[k:end])
                if re.search(r"\b\w+ [+-]= 1;|\b\w+ [+-]= 8;|\b(\w+) = \1 [+-] 1;|\bend = last;", inside):
                    yield at + k, "%s: %s" % (name, line.strip())


def point4(path, lines):
    for name, at, body in functions(lines):
        head = body[0]
        if re.search(r"\bfn (same_\w+|is_equal|equal|cmp|copy|clone|fresh|start|empty|zeroed|wide|narrow|widened)\(", head):
            yield at, head.strip()
        elif re.search(r"fn \w+\((?:self|\w+: u\d+|\w+: usize)\) -> (?:u8|u16|u32|u64|usize|Attribute|Reading|\w*Option<[^>]*>)", head) and len(body) <= 12 and re.search(r" as u|return Attribute|return Reading|if WIDEST", "\n".join(body)):
            yield at, head.strip()


def parameters(body):
    text = " ".join(x.strip() for x in body)
    inside = re.search(r"\((.*?)\) (?:->|requires|ensures|\{)", text)
    return re.findall(r"(\w+): (&?(?:mut )?(?:\[[^\]]*\]|[\w:<>]+))", inside.group(1)) if inside else []


def point5(found):
    groups = collections.defaultdict(list)
    facts = collections.defaultdict(list)
    for path, lines in found:
        for name, at, body in functions(lines):
            place = "%s:%d %s" % (path, at, name)
            given = ["%s: %s" % x for x in parameters(body)]
            for three in itertools.combinations(given, 3):
                groups[three].append(place)
            for line in body:
                clause = re.match(r"^ *requires(?: \w+)? \{ (.*) \}$", line)
                for fact in re.split(r"\) × \(", clause.group(1).strip("()")) if clause else []:
                    facts[fact].append(place)
    # the same functions with several threes of their parameters count once
    most = {}
    for three, names in groups.items():
        if len(names) > 2:
            most.setdefault(tuple(names), set()).update(three)
    for names, given in sorted(most.items(), key=lambda x: -len(x[0])):
        yield ", ".join(sorted(given)), names
    for fact, names in sorted(facts.items(), key=lambda x: -len(x[1])):
        if len(names) > 2:
            yield "requires " + fact, names


def point6(path, lines):
    for name, at, body in functions(lines):
        given = parameters(body)
        for (a, s), (b, t) in zip(given, given[1:]):
            if "[" in s and t == "usize" and ";" in s:
                yield at, "%s: %s: %s, %s: %s" % (name, a, s, b, t)
    text = "\n".join(lines)
    for struct in re.finditer(r"struct (\w+)[^{;]*\{(.*?)\n\}", text, re.S):
        arrays = re.findall(r"(\w+): \[[^\]]*\]", struct.group(2))
        if arrays and (len(arrays) > 1 or re.search(r": usize", struct.group(2))):
            yield text[:struct.start()].count("\n") + 1, "struct %s: %s" % (struct.group(1), ", ".join(arrays))


def point7(path, lines):
    for name, at, body in functions(lines):
        text = "\n".join(body)
        if len(re.findall(r"if (?:name|kind) == ", text)) > 1:
            yield at, "%s: %d tests of a kind or a name" % (name, len(re.findall(r"if (?:name|kind) == ", text)))


WHAT = {
    1: "own enums of the shape of Option or Result, flags and refusals beside values, numbers for kinds",
    2: "groups of functions that differ in names, types and numbers only",
    3: "loops that count an index by hand",
    4: "equality, defaults and conversions by hand",
    5: "three or more parameters, or a fact asked for, that three or more functions share",
    6: "arrays with a length beside, parallel arrays",
    7: "a switch on a kind or a name",
}


def main():
    listed = "--list" in sys.argv
    wanted = [int(a) for a in sys.argv[1:] if a.isdigit()] or sorted(WHAT)
    found = list(sources())
    for point in wanted:
        places = []
        if point == 2:
            places = [" = ".join(names) for names in point2(found)]
        elif point == 5:
            places = ["%s: %s" % (what, "; ".join(names)) for what, names in point5(found)]
        else:
            for path, lines in found:
                places += ["%s:%d %s" % (path, at, what) for at, what in globals()["point%d" % point](path, lines)]
        print("%d  %4d  %s" % (point, len(places), WHAT[point]))
        if listed:
            for place in places:
                print("        " + place)


main()
