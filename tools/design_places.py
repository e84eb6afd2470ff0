#!/usr/bin/env python3
"""Counts the places of docs/DESIGN-PASS.md in crates/*/src at a commit: design_places.py COMMIT [POINT]. With a point it lists them."""
import re
import subprocess
import sys


def run(*words):
    return subprocess.run(words, capture_output=True, text=True, check=True).stdout


def sources(commit):
    names = run("git", "ls-tree", "-r", "--name-only", commit, "crates").split()
    return {n: run("git", "show", f"{commit}:{n}") for n in names if n.endswith(".rt") and "/src/" in n}


def enums(text):
    for m in re.finditer(r"enum (\w+)[^{]*\{(.*?)\n\}", text, re.S):
        body = re.sub(r"//.*", "", m.group(2))
        yield m.group(1), m.start(), re.findall(r"^    (\w+)(\([^)]*\))?,", body, re.M)


def params(text):
    for m in re.finditer(r"fn (\w+)(?:<[^(]*>)?\(([^{]*?)\)\s*(?:->|\n\s*(?:requires|ensures)|\{|\s*$)", text, re.S):
        depth, n, word = 0, 0, m.group(2)
        parts, start = [], 0
        for i, c in enumerate(word):
            depth += c in "([<"
            depth -= c in ")]>"
            if c == "," and depth == 0:
                parts.append(word[start:i])
                start = i + 1
        parts.append(word[start:])
        yield m.group(1), m.start(), [p for p in parts if p.strip()]


def find(pattern):
    return lambda text: [(m.group(0).strip().split("\n")[0], m.start()) for m in re.finditer(pattern, text, re.M)]


def like_option(text):
    return [(n, at) for n, at, v in enums(text) if len(v) == 2 and sum(bool(x[1]) for x in v) == 1]


def many(text):
    return [(f"{n}, {len(p)} parameters", at) for n, at, p in params(text) if len(p) > 6]


def lent(text):
    words = ("missing:", "tags:", "slots:", "core:", "c: Core", "cells:")
    return [(n, at) for n, at, p in params(text) if sum(any(w in x for w in words) for x in p) > 1]


POINTS = {
    "1 enums of the shape of Option or Result": like_option,
    "1 a number or flag that says whether the value beside it counts": find(r"^\s+(pub )?(number: u32|written: bool|going: bool),|^\s+(pub )?kind: u32,$"),
    "1 numbers for refusals: constants and functions that give one": find(
        r"^pub const (SETTING|NO_WINDOW|WRONG_BURST|LINK_DOWN|CONFIG_BUSY|SLOTS_USED|FEW_TAGS|TOO_SHORT|MALFORMED|UNEXPECTED|NOT_FINISHED|WRONG_DATA): u32.*|fn \w*(number|refusal)\w*\([^{]*?\) -> u32"),
    "1 numbers for kinds and states: constants": find(
        r"^(pub )?const (FREE|OPEN|FINISHED|MEMORY_READ|CONFIG_READ|CONFIG_WRITE|ERR_COR|ERR_NONFATAL|ERR_FATAL|READ|WRITE|CONFIG|COMPLETION|TICK|LINK|LOOK|RELEASE|REQUEST_WRITER|REQUEST_READER|COMPLETION_WRITER|COMPLETION_READER|MESSAGE|END): u32.*"),
    "1 a bool for a write that failed": find(r"fn \w+\([^{]*?rt: &[^{]*?\) -> bool"),
    "3 loops with while or loop": find(r"^\s+(while |loop \{).*"),
    "4 conversions by a function of common": find(r"\b(wide|wide64|long|index)\([^)]"),
    "4 types without PartialEq, Eq and Debug": find(r"#\[derive\(Clone, Copy\)\]\n(pub )?(struct|enum) \w+"),
    "4 text put byte by byte": find(r"\b(put|put_all|put_decimal|put_hex|put_nth|token|named|named_word)\((&mut )?(line|out)"),
    "5 functions of more than six parameters": many,
    "5 functions that are lent two parts or more of the bridge's state": lent,
    "6 columns in a flat array": find(r"^pub const (SENT|OWNER|PLACE|NEXT|KIND|STATE|SIZE|PIECES|FAULT|CAUSE|SESSION): usize.*"),
    "6 a place in a buffer handed from call to call": find(r"(line|out): &mut \[u8; \w+\], at: usize|area: &mut \[u8\],\s+at: usize,?\s*\) -> usize"),
}


def facts(texts):
    """What three contracts or more ask for, each with how many do. The values' names and moments are left out."""
    asked = {}
    for text in texts.values():
        for m in re.finditer(r"^\s*requires (?:\w+ )?\{(.*)\}\s*$", text, re.M):
            for fact in m.group(1).split("×"):
                fact = fact.strip().lstrip("(")
                while fact.endswith(")") and fact.count("(") < fact.count(")"):
                    fact = fact[:-1]
                fact = re.sub(r"\b(self|b|c|h|a|q|s|l)\.(old\.|now\.)?|\.(old|now)\b", "", fact.strip())
                fact = re.sub(r"^(k|slot) <", "slot <", re.sub(r"^t(ag)? <", "tag <", fact))
                asked[fact] = asked.get(fact, 0) + 1
    return sorted(((n, f) for f, n in asked.items() if n > 2), reverse=True)


def main():
    commit, want = sys.argv[1], sys.argv[2:]
    texts = sources(commit)
    for name, places in POINTS.items():
        if want and not name.startswith(want[0]):
            continue
        found = [(f, t[:at].count("\n") + 1, w) for f, t in sorted(texts.items()) for w, at in places(t)]
        print(f"{len(found):5}  {name}")
        if want:
            for f, line, w in found:
                print(f"       {f}:{line}: {w}")
    found = facts(texts)
    if not want or want[0] == "5":
        print(f"{len(found):5}  5 facts that three contracts or more ask for, {sum(n for n, _ in found)} times in all")
        for n, fact in found if want else []:
            print(f"       {n} times: {fact}")
    print(f"{sum(t.count(chr(10)) for t in texts.values()):5}  lines of src")
    files = run("git", "ls-tree", "-r", "--name-only", commit, "crates").split()
    proofs = [f for f in files if "/proofs/" in f and f.endswith(".antt")]
    print(f"{sum(f.endswith('/Answers.antt') for f in proofs):5}  8 files of answers")
    print(f"{sum(run('git', 'show', f'{commit}:{f}').count(chr(10)) for f in proofs):5}  8 lines of proofs")


main()
