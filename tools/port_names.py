#!/usr/bin/env python3
"""Brings the names of definitions and lemmas to snake case, by port_names.tsv beside this file.

usage: python3 tools/port_names.py [ROOT]      after the kit's port.py, once

A row is: old name, a tab, new name. Whole words of .antt files, of clauses and ghost items of .rt files and of code spans of
.md files turn; in comments, words with a capital inside and words in code spans. The module specs.contracts, a name that
Rattle now makes itself, becomes specs.Code, where it is one of ours.
"""

import os
import re
import sys

HERE = os.path.dirname(os.path.realpath(__file__))
ROOT = os.path.realpath(sys.argv[1] if len(sys.argv) > 1 else os.path.join(HERE, ".."))
with open(os.path.join(HERE, "port_names.tsv"), encoding="utf-8") as f:
    TABLE = dict(line.rstrip("\n").split("\t") for line in f if line.strip())
WORD = re.compile(r'[^\s(){}.;,@"«»¬`\[\]|:/]+')
CAMEL = re.compile(r"[a-z0-9][A-Z]")
COMMENT = re.compile(r"(?<![^\s(){}.;,@])--(?=[\s-]|$).*$")
SPAN = re.compile(r"`[^`]*`")
OURS = "Entries Struct Tables Expected Passing Cells Columns Meaning Parts Steps Summary".split()
CODE = re.compile(r"(Rattle\.\w+\.specs\.)contracts\.(" + "|".join(OURS) + r")\b")


def turn(text, may=lambda w: True):
    return WORD.sub(lambda m: TABLE[m[0]] if m[0] in TABLE and may(m[0]) else m[0], text)


def prose(text):
    text = SPAN.sub(lambda m: turn(m[0]), text)
    return turn(text, lambda w: CAMEL.search(w))


def antt(text):
    out = []
    for line in text.split("\n"):
        m = COMMENT.search(line)
        code, rest = (line[: m.start()], line[m.start() :]) if m else (line, "")
        out.append(turn(CODE.sub(r"\1Code.\2", code)) + prose(rest))
    return "\n".join(out)


# The clauses and the ghost items of a .rt file: what stands in their braces, or up to the semicolon of a ghost use.
HEAD = re.compile(r"(?:requires|ensures)\*?\s*(?:\w+\s*)?\{|ghost\s+\w+\s*[:=]\s*\{|ghost use\b")


def end_of(text, at):
    depth, i = 1, at
    while depth:
        depth += {"{": 1, "}": -1}.get(text[i], 0)
        i += 1
    return i


def rt(text):
    out, at = [], 0
    while True:
        m = HEAD.search(text, at)
        if not m:
            break
        line = text.rfind("\n", 0, m.start()) + 1
        if "//" in text[line : m.start()]:
            out.append(text[at : m.end()])
            at = m.end()
            continue
        end = text.index(";", m.end()) if m[0] == "ghost use" else end_of(text, m.end())
        out += [text[at : m.start()], turn(CODE.sub(r"\1Code.\2", text[m.start() : end]))]
        at = end
    text = "".join(out) + text[at:]
    return re.sub(r"//.*", lambda m: prose(m[0]), text)


def md(text):
    text = re.sub(r"(?ms)^```[^\n]*\n.*?^```$", lambda m: turn(m[0]), text)
    return SPAN.sub(lambda m: turn(m[0]), text)


def files():
    for d, dirs, names in os.walk(ROOT):
        dirs[:] = sorted(x for x in dirs if x not in (".git", "out", "target", "second", "bench", "tools"))
        for n in sorted(names):
            kind = {".antt": antt, ".rt": rt, ".md": md}.get(os.path.splitext(n)[1])
            if kind:
                yield os.path.join(d, n), kind


def clash(old, new, path):
    """Words that were two and are one."""
    seen = {}
    for a, b in zip(WORD.findall(old), WORD.findall(new)):
        seen.setdefault(b, set()).add(a)
    for b, a in sorted(seen.items()):
        if len(a) > 1:
            print(f"look: {os.path.relpath(path, ROOT)}: {' and '.join(sorted(a))} are both {b} now")


def main():
    n = 0
    for path, kind in list(files()):
        with open(path, encoding="utf-8") as f:
            old = f.read()
        new = kind(old)
        if kind is not md:
            clash(CODE.sub(r"\1Code.\2", old), new, path)
        if new != old:
            n += 1
            with open(path, "w", encoding="utf-8") as f:
                f.write(new)
    crates = os.path.join(ROOT, "crates")
    for c in sorted(os.listdir(crates)):
        specs = os.path.join(crates, c, "specs")
        for a, b in (("contracts.antt", "Code.antt"), ("contracts", "Code")):
            if os.path.exists(os.path.join(specs, a)):
                os.rename(os.path.join(specs, a), os.path.join(specs, b))
        lib = os.path.join(specs, "Lib.antt")
        if os.path.exists(lib):
            with open(lib, encoding="utf-8") as f:
                old = f.read()
            new = re.sub(r"\bmod contracts\b", "mod Code", old)
            if new != old:
                with open(lib, "w", encoding="utf-8") as f:
                    f.write(new)
    print(f"{n} files changed")


main()
