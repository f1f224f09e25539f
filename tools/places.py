#!/usr/bin/env python3
"""Counts the places in src/ that docs/DESIGN-PASS.md speaks of, point by point; with -l it names each.

    tools/places.py [-l] [POINT]

It reads the text of crates/*/src/**/*.rt alone. What it finds is a place to look at: the page says which stay, and why.
"""
import glob
import re
import sys

FAULTS = {"NoRoom", "NotUtf8", "Bad", "Refused", "Refuses", "Stops", "Failed", "Shape", "Unfit", "NoRule", "NoToken", "Over",
          "NotScalar", "NotDigits", "NoEscape", "Full", "FalseTables", "TooLong", "Held", "Broke", "Unread", "NoMatch"}


def sources():
    for path in sorted(glob.glob("crates/*/src/**/*.rt", recursive=True)):
        yield path, open(path, encoding="utf-8").read()


def line_of(text, at):
    return text.count("\n", 0, at) + 1


def block(text, at):
    """The text between the brace at or after `at` and its partner, and where it ends."""
    start = text.index("{", at)
    depth = 0
    for i in range(start, len(text)):
        depth += (text[i] == "{") - (text[i] == "}")
        if depth == 0:
            return text[start + 1:i], i + 1
    raise ValueError("a brace is not closed")


def enums():
    for path, text in sources():
        for m in re.finditer(r"^(?:pub(?:\(crate\))? )?enum (\w+)", text, re.M):
            body, _ = block(text, m.end())
            yield path, line_of(text, m.start()), m.group(1), variants_of(re.sub(r"//[^\n]*", "", body))


def variants_of(body):
    """The variants of an enum's body: each with what it holds, as text."""
    parts, depth, part = [], 0, ""
    for c in body + ",":
        depth += (c in "({[<") - (c in ")}]>")
        if c == "," and depth == 0:
            parts.append(part.strip())
            part = ""
        else:
            part += c
    return [(re.match(r"\w+", p).group(0), p[len(re.match(r"\w+", p).group(0)):].strip()) for p in parts if p]


def functions():
    for path, text in sources():
        for m in re.finditer(r"^( *)(pub(?:\(crate\))? )?fn (\w+)", text, re.M):
            head_end = text.index("\n" + m.group(1) + "{", m.end()) if ("\n" + m.group(1) + "{") in text[m.end():] else None
            if head_end is None:
                continue
            # the body's brace stands alone at the function's indent, or behind the signature
            brace = re.compile(r"\n" + m.group(1) + r"\{\n|\) (?:-> [^\n{]*)?\{\n").search(text, m.end())
            if not brace:
                continue
            at = text.index("{", brace.end() - 2)
            body, end = block(text, at)
            yield path, line_of(text, m.start()), m.group(3), text[m.start():at], body, bool(m.group(2))


def point1():
    for path, line, name, variants in enums():
        if name.endswith("Error"):
            continue
        bare = [n for n, a in variants if not a]
        held = [n for n, a in variants if a]
        if len(variants) == 2 and len(bare) == 1:
            yield path, line, "Option's shape: " + name
        elif len(variants) >= 2 and held and any(n in FAULTS for n, _ in variants):
            yield path, line, "Result's shape: " + name
    for path, text in sources():
        kinds = re.findall(r"^pub const (\w+): u(?:8|32) = \d+;", text, re.M)
        if path.endswith("kind.rt") and kinds:
            yield path, 1, "numbers for kinds: %d of them" % len(kinds)
        for m in re.finditer(r"^pub struct (\w+) \{\n(?:[^}]*\n)?    pub number: ", text, re.M):
            yield path, line_of(text, m.start()), "number for a refusal: " + m.group(1)


def shape(body):
    body = re.sub(r"//[^\n]*", "", body)
    body = re.sub(r"\b(?:\d[\dxa-fA-F_]*|[A-Z][A-Z_]+)\b", "N", body)
    body = re.sub(r"\b(?:u8|u16|u32|u64|usize)\b", "T", body)
    return re.sub(r"\s+", " ", body).strip()


def point2():
    groups = {}
    for path, line, name, head, body, _ in functions():
        key = shape(body)
        if len(key) > 40 or re.fullmatch(r"\w+ as T", key):
            groups.setdefault(key, []).append((path, line, name))
    for key, places in sorted(groups.items(), key=lambda g: g[1]):
        if len(places) > 1:
            for path, line, name in places:
                yield path, line, "twin: " + ", ".join(p[2] + " of " + p[0].split("/")[1] for p in places)
    for path, text in sources():
        names = {}
        for m in re.finditer(r"^(?:pub(?:\(crate\))? )?fn (\w+?)_(small|medium|middle|large|wide|one|two)\b", text, re.M):
            names.setdefault(m.group(1), []).append(m)
        for stem, ms in names.items():
            if len(ms) > 1:
                for m in ms:
                    yield path, line_of(text, m.start()), "a size in the name: " + stem + "_" + m.group(2)


def point3():
    for path, text in sources():
        for m in re.finditer(r"^ *(?:'\w+: )?(while [^\n{]*|loop) ?\{", text, re.M):
            body, _ = block(text, m.end() - 1)
            head = m.group(1)
            names = re.findall(r"\b(\w+) (?:\+|-)= 1;", body)
            counted = [n for n in names if head == "loop" or re.search(r"\b" + n + r"\b", head)]
            steps = re.findall(r"\b(\w+) (?:\+|-)= ([^;]*);|\b(\w+) = ([^;]*);", body)
            other = [s for s in steps if s[0] in counted and s[1] != "1"]
            if counted and head != "loop" and not other:
                yield path, line_of(text, m.start()), "counted by hand: " + head


def point4():
    for path, line, name, head, body, _ in functions():
        code = re.sub(r"//[^\n]*", "", body).strip()
        if re.fullmatch(r"\w+ as \w+", code):
            yield path, line, "a conversion: " + name
        elif "-> bool" in head and code.startswith("match") and set(re.findall(r"=> (\w+)", code)) <= {"true", "false", "match"} and "true" in code:
            yield path, line, "a test of variants: " + name


def point5():
    groups = {}
    clauses = {}
    for path, line, name, head, body, _ in functions():
        crate = path.split("/")[1]
        m = re.search(r"\((.*?)\)\s*(?:->|\n|requires|ensures)", head, re.S)
        params = [re.sub(r"\s+", " ", p).strip() for p in re.split(r",(?![^\[(<]*[\])>])", m.group(1))] if m else []
        params = [p for p in params if ":" in p]
        for i in range(len(params)):
            for j in range(i + 1, len(params)):
                groups.setdefault((crate, params[i], params[j]), []).append((path, line, name))
        for c in re.findall(r"^\s*requires(?: \w+)? \{ (.*) \}$", head, re.M):
            clauses.setdefault((crate, c), []).append((path, line, name))
    for (crate, c), places in sorted(clauses.items()):
        if len(places) >= 3:
            yield places[0][0], places[0][1], "in %d contracts of %s: %s" % (len(places), crate, c)
    for (crate, a, b), places in sorted(groups.items()):
        if len(places) >= 3:
            yield places[0][0], places[0][1], "together in %d functions of %s: %s, %s" % (len(places), crate, a, b)


def point6():
    for path, line, name, head, body, _ in functions():
        if re.search(r"\b(\w+): &(?:mut )?\[[^\]]*\],\s*(?:n|len|used|count|size|k|room|free): usize", head):
            yield path, line, "a slice and a number behind it: " + name
    for path, text in sources():
        for m in re.finditer(r"let mut \w+ = \[0[^;\]]*; [^\]]*\];", text):
            yield path, line_of(text, m.start()), "a local array of fixed size"


def point7():
    for path, line, name, head, body, _ in functions():
        arms = re.findall(r"=> (?:\w+::)*(\w+)\(", body)
        if len(arms) >= 5 and len(set(arms)) >= 5:
            yield path, line, "a switch of %d calls: %s" % (len(arms), name)


def point8():
    for path in sorted(glob.glob("crates/*/proofs/**/Answers.antt", recursive=True)):
        text = open(path, encoding="utf-8").read()
        n = len(re.findall(r"^(?:pub )?[\w'-]+ : goal\.", text, re.M))
        if n:
            yield path, 1, "%d answers" % n


POINTS = [point1, point2, point3, point4, point5, point6, point7, point8]


def main():
    named = "-l" in sys.argv[1:]
    only = [int(a) for a in sys.argv[1:] if a.isdigit()]
    for i, point in enumerate(POINTS, 1):
        if only and i not in only:
            continue
        places = list(point())
        kinds = {}
        for _, _, what in places:
            k = what.split(":")[0]
            k = re.sub(r"\d+", "N", k)
            kinds[k] = kinds.get(k, 0) + 1
        print("%d: %d  %s" % (i, len(places), "; ".join("%s %d" % k for k in sorted(kinds.items())) if len(kinds) < 9 else ""))
        if named:
            for path, line, what in places:
                print("   %s:%d: %s" % (path, line, what))


main()
