#!/usr/bin/env python3
"""Counts, in the src/ of the crates, the places of the older forms that docs/DESIGN-PASS.md speaks of, a line for each point; with a number behind it also where
they are:  tools/design_count.py [POINT]. It goes by text: what it counts is for a reader to judge."""
import collections
import glob
import re
import sys

FILES = {f: open(f).read() for f in sorted(glob.glob("crates/*/src/*.rt"))}
# Names of variants that say that there is nothing, that all is well, or that something went wrong.
WORDS = set("""Refused Short Unknown Absent NoAnswer Nothing Going End Ended Freed Failed Wrong Good Accepted Done Empty NoSession Damaged Bad Told""".split())


def crate(f):
    return f.split("/")[1]


def code(t):
    return re.sub(r"//[^\n]*", "", t)


def functions():
    """Each function: its file, its name, its signature, its clauses and its body."""
    for f, t in FILES.items():
        for m in re.finditer(r'^( *)(?:pub(?:\(crate\))? )?(?:extern "C" )?fn (\w+)(.*?)^\1\}', code(t), re.S | re.M):
            whole = m.group(3)
            at = re.search(r"(^|\s)\{\n", whole)
            if at:
                head, body = whole[: at.start()], whole[at.end() :]
                parts = re.split(r"\n\s*(?=requires|ensures)", head)
                yield f, m.group(2), parts[0], parts[1:], body


def enums():
    """Own enums of the shape of Option or Result: few variants, of which one is so named; and a check or a flag that stands beside a value in a struct."""
    for f, t in FILES.items():
        for m in re.finditer(r"^(?:pub(?:\(crate\))? )?enum (\w+) \{\n(.*?)^\}", code(t), re.S | re.M):
            variants = re.findall(r"^    (\w+)", m.group(2), re.M)
            if len(variants) <= 6 and WORDS & set(variants):
                yield f"{crate(f)}: enum {m.group(1)} {{ {', '.join(variants)} }}"
        for m in re.finditer(r"^(?:pub(?:\(crate\))? )?struct (\w+) \{\n(.*?)^\}", code(t), re.S | re.M):
            if re.search(r"^    pub (check|fit|short|ok|good|found): ", m.group(2), re.M):
                yield f"{crate(f)}: struct {m.group(1)}"


def twins():
    """Functions of a crate whose signatures and bodies are one text once types, sizes, constants, variants and their own names are taken out."""
    groups = collections.defaultdict(list)
    for f, name, head, _, body in functions():
        if len(body.split("\n")) < 3:
            continue
        text = re.sub(r"\b" + name + r"\b", "F", head + "{" + body)
        text = re.sub(r"\b(u8|u16|u32|u64|usize|u128|bool)\b|\b[A-Z]\w*(::\w+)*\b|\b(0x)?[0-9a-f_]*[0-9][0-9a-f_]*(u8|u16|u32|u64|usize)?\b", "T", text)
        text = re.sub(r"\b(be|le|as|is|set|read|put)_?T?\w*(?=\()", "G", text)
        groups[crate(f), re.sub(r"\s+", " ", text)].append(name)
    for (name, _), fns in groups.items():
        if len(fns) > 1:
            yield f"{name}: {' '.join(fns)}"


def loops():
    for f, t in FILES.items():
        for m in re.finditer(r"^ *(while|loop)\b.*", code(t), re.M):
            yield f"{f[7:]}: {m.group(0).strip()}"


def by_hand():
    """Conversion, printing, equality and empty values by hand."""
    for f, name, head, _, body in functions():
        if re.match(r"(number|code|name|text|print|show|part|line|word|none|same|equal|digit|wide)$|(from|to|as|with)_", name) and "&mut" not in head:
            head = re.sub(r"\s+", " ", head).strip()
            yield f"{crate(f)}: {name}{head}"


def facts():
    """Facts that stand in the contracts of three or more functions of a crate, and three or more parameters that go together in three or more of its functions."""
    seen = collections.defaultdict(set)
    for f, name, head, clauses, _ in functions():
        for it in clauses:
            if it.startswith("requires"):
                for fact in re.split(r"\s×\s", re.sub(r"^requires\s*\w*\s*\{(.*)\}\s*$", r"\1", it.strip(), flags=re.S)):
                    seen[crate(f), "requires " + re.sub(r"[\s()]+", " ", fact).strip()].add((f, name))
        params = re.findall(r"(\w+): (&?(?:mut )?[\w\[\]; :]+)", head.split("->")[0])
        for i in range(len(params) - 2):
            seen[crate(f), "parameters " + ", ".join(f"{n}: {t}" for n, t in params[i : i + 3])].add((f, name))
    for (name, fact), fns in seen.items():
        if len(fns) > 2:
            yield f"{name}: {fact} ({len(fns)})"


def buffers():
    """A struct that holds an array beside a count, or two arrays; a list that is searched by hand."""
    for f, t in FILES.items():
        for m in re.finditer(r"^(?:pub(?:\(crate\))? )?struct (\w+)[^{\n]* \{\n(.*?)^\}", code(t), re.S | re.M):
            arrays = re.findall(r": \[.*; *\w+\]", m.group(2))
            counts = re.findall(r"\b(len|count|used|held|entries|filled|n|lends)\b: (u|usize)", m.group(2))
            if len(arrays) > 1 or (arrays and counts):
                yield f"{crate(f)}: struct {m.group(1)}"
        for m in re.finditer(r"\b(\w+): &(?:mut )?\[[^\]]*\], (\w*(?:len|count|used|n|from)): usize", code(t)):
            yield f"{crate(f)}: {m.group(0)}"


def steps():
    """A match that does nothing but choose, by a state, which of four or more functions is called; tables of functions."""
    for f, name, head, _, body in functions():
        for m in re.finditer(r"match \w+(?:\.\w+)* \{\n(.*?)^\s{4,8}\}", body, re.S | re.M):
            arms = re.findall(r"=> ([a-z_:]+(?:\.[a-z_]+)?)\(", m.group(1))
            if len(set(arms)) > 3:
                yield f"{crate(f)}: {name} ({len(arms)} arms)"


def proofs():
    for f in sorted(glob.glob("crates/*/proofs/**/*.antt", recursive=True)):
        if not f.endswith("/Lib.antt"):
            yield f[7:]


POINTS = [
    ("1. enums of the shape of Option or Result, a flag or check beside a value", enums),
    ("2. groups of twins", twins),
    ("3. loops that count by hand", loops),
    ("4. conversion, printing, equality, empty values by hand", by_hand),
    ("5. facts and parameters that stand in three or more contracts", facts),
    ("6. arrays with a count beside, parallel arrays", buffers),
    ("7. matches that only choose the step to run", steps),
    ("8. files of proofs", proofs),
]

if __name__ == "__main__":
    for number, (words, count) in enumerate(POINTS, 1):
        if len(sys.argv) < 2 or sys.argv[1] == str(number):
            found = list(count())
            print(f"{words}: {len(found)}")
            if len(sys.argv) > 1:
                print("\n".join(found))
