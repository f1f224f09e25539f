#!/usr/bin/env python3
"""Brings the repository's own definitions and lemmas to snake case, once, after the port's own script.

usage: tools/respell.py [--table]     at the top of the repository

A name is turned if a file of specs/ or a lemma file of proofs/ declares it, as a definition, a constructor or a field: `firstBad` and `first-bad`
become `first_bad`. Types, and modules, keep their capitals. A lemma that would then have a definition's name gets `_lem`. Names that Rattle
makes are left: those behind a dot that no record of this repository has, and those that a function's own proof file declares.
Turned are .antt files, the clauses of .rt files, the edits of must-fail/, and code spans of the papers. --table prints the names and writes
nothing. A second run changes nothing.
"""

import collections
import glob
import os
import re
import sys

WORD = re.compile(r"[^\s(){}.;,@\"«»\[\]|`]+")
SIGNATURE = re.compile(
    r"(?:(?:pub|abbrev|unfoldable|pattern|axiom)\s+)*([^\s(){}.;,@\"«»]+)((?:\s+\{[^}]*\})*)((?:\s+\([^)]*\))*)\s*:(?:\s|$)"
)
FIELD = re.compile(r"\s+pub ([^\s(){}.;,@\"«»]+)\s*:(?:\s|$)")
INNER = re.compile(r"\s+(?:(?:pub|abbrev|unfoldable)\s+)*([a-z][\w'′?-]*)((?:\s+\{[^}]*\})*)((?:\s+\([^)]*\))*)\s*:(?:\s|$)")
RECORD = re.compile(r"\s*(?:pub )?record\b.*\bwhere")


def antt_files():
    return sorted(glob.glob("crates/*/specs/**/*.antt", recursive=True) + glob.glob("crates/*/proofs/**/*.antt", recursive=True))


def is_of_function(path):
    """Whether the file stands in a function's own folder of proofs/."""
    return "/proofs/" in path and path.count("/") > 3


def snake(name):
    name = re.sub(r"(?<=[a-z0-9])([A-Z])", lambda m: "_" + m[1].lower(), name.replace("′", "'"))
    return name.replace("-", "_")


def is_old(name):
    return snake(name) != name


def is_plain(name):
    """Whether the name is one of words alone, and begins with none in capitals."""
    return re.fullmatch(r"[a-z][\w'′?-]*", name) is not None and not name.endswith("-")


def declared():
    specs, lemmas, fields, local = set(), set(), set(), collections.defaultdict(set)
    for path in antt_files():
        inside = False
        for line in open(path, encoding="utf-8").read().split("\n"):
            if RECORD.match(line):
                inside = True
                continue
            if line and not line.startswith((" ", "--")):
                inside = False
            m = SIGNATURE.match(line) if not line.startswith(" ") else None
            if m:
                if is_of_function(path):
                    local[path].add(m[1])
                elif "/specs/" in path:
                    specs.add(m[1])
                else:
                    lemmas.add(m[1])
            i = INNER.match(line) if not inside and not is_of_function(path) else None
            if i:
                lemmas.add(i[1])
            f = FIELD.match(line) if inside else None
            if f and not is_of_function(path):
                fields.add(f[1])
    return specs, lemmas, fields, local


def table(specs, lemmas, fields):
    """What each name becomes. A field may share its name with a definition; of a definition and a lemma the lemma gets `_lem`."""
    turned = {name: snake(name) for name in specs | fields | lemmas if is_plain(name)}
    first = {}
    for name in sorted(specs | lemmas, key=lambda n: (n not in specs, not re.search("[a-z][A-Z]", n), n)):
        new = turned.get(name, name)
        if new in first and first[new] != name:
            print(f"together: {first[new]}, {name} -> {new}: {new}, {new}_lem")
            if name in specs or new + "_lem" in first:
                sys.exit(f"respell: give {name} another name")
            turned[name] = new = new + "_lem"
        first[new] = name
    return {a: b for a, b in turned.items() if a != b}


def turn_code(text, turned, fields, keep):
    def one(m):
        word = m[0]
        if word in keep or word not in turned:
            return word
        if m.start() and text[m.start() - 1] == ".":
            is_of_module = is_old(word) and re.search(r"\b[A-Z]\w*\.$", text[: m.start()][-200:])
            return turned[word] if word in fields or is_of_module else word
        return turned[word]

    return WORD.sub(one, text)


def turn_antt(text, turned, fields, keep):
    out = []
    for line in text.split("\n"):
        code, dashes, comment = line, "", ""
        m = re.search(r"(?:^|\s)--(?:\s|$)", line)
        if m:
            at = m.start() + (0 if m.start() == 0 and line.startswith("--") else 1)
            code, comment = line[:at], line[at:]
        out.append(turn_code(code, turned, fields, keep) + turn_prose(comment, turned))
    return "\n".join(out)


def turn_prose(text, turned):
    """In prose a name turns inside a code span; one in camel case turns anywhere."""
    text = re.sub(r"`[^`\n]+`", lambda m: WORD.sub(lambda w: turned.get(w[0], w[0]), m[0]), text)
    return re.sub(r"(?<![\w`./-])[a-z]+(?:[A-Z][a-z0-9]*)+(?![\w(-])", lambda w: turned.get(w[0], w[0]), text)


def turn_rt(text, turned, fields):
    turned = {a: b for a, b in turned.items() if is_old(a)}
    out = []
    for line in text.split("\n"):
        at = line.find("//")
        if at >= 0 and line[:at].count('"') % 2 == 0:
            out.append(turn_code(line[:at], turned, fields, ()) + turn_prose(line[at:], turned))
        elif '"' in line:
            out.append(line)
        else:
            out.append(turn_code(line, turned, fields, ()))
    return "\n".join(out)


def main(args):
    if not os.path.isdir("crates"):
        sys.exit("respell: run it at the top of the repository")
    specs, lemmas, fields, local = declared()
    # Two more: a definition among a record's fields, and a name that an import gives.
    turned = table(specs, lemmas | {"ruleHere", "linesRecordsOf"}, fields)
    if "--table" in args:
        for a, b in sorted(turned.items()):
            print(f"{a}\t{b}")
        return
    for path in antt_files():
        text = open(path, encoding="utf-8").read()
        # A name that is spelled as it should be gets `_lem` only where the lemma is declared or imported.
        here = {a: b for a, b in turned.items() if is_old(a) or re.search(rf"(?m)^(?:pub |abbrev |unfoldable )*{re.escape(a)}\b|^use .*[{{ ]{re.escape(a)}[,}}]", text)}
        rewrite(path, lambda t: turn_antt(t, here, fields, local.get(path, ())))
    for path in glob.glob("crates/*/src/**/*.rt", recursive=True):
        rewrite(path, lambda t: turn_rt(t, turned, fields))
    for path in glob.glob("crates/*/must-fail/*.edit"):
        rewrite(path, lambda t: turn_antt(t, {a: b for a, b in turned.items() if is_old(a)}, fields, ()))
    for path in glob.glob("*.md") + glob.glob("docs/**/*.md", recursive=True):
        if os.path.basename(path) not in ("PORT.md", "CHANGELOG.md") and "/landings/" not in path:
            rewrite(path, lambda t: turn_prose(t, {a: b for a, b in turned.items() if is_old(a)}))


def rewrite(path, turn):
    text = open(path, encoding="utf-8").read()
    new = turn(text)
    if new != text:
        open(path, "w", encoding="utf-8").write(new)


if __name__ == "__main__":
    main(sys.argv[1:])
