#!/usr/bin/env python3
"""Brings the repository's own definitions, lemmas, record fields and constructors to today's spelling.

usage: tools/snake_names.py [--check]        at the top of the repository, once, after port.py

A definition or a lemma is in snake case (placeOf is place_of, put-less is put_less), and one whose value is a type is in
upper camel case. Names of src/ (functions, types, fields, variants, constants) and names that Rattle makes keep
their spelling. It rewrites .antt files, the clauses and comments of .rt files, and prints names that would fall together.
"""
import glob
import os
import re
import sys

PART = r"[A-Za-z0-9_'\u2080-\u2089\u0391-\u03c9]+(?:-[A-Za-z0-9_'\u2080-\u2089\u0391-\u03c9]+)*"
TOKEN = re.compile(r'"(?:[^"\\]|\\.)*"|' + PART)
DECL = re.compile(r"^( *)((?:(?:pub|abbrev|unfoldable) )*)(" + PART + r"(?: " + PART + r")*) :(?= )")
SKIP = {"use", "mod", "record", "data", "open", "where", "module", "let", "in"}


def snake(name):
    name = name.replace("-", "_")
    name = re.sub(r"([a-z0-9])([A-Z])", lambda m: m[1] + "_" + m[2], name)
    return name.lower() if not name[:1].isupper() else name


def camel(name):
    return "".join(p[:1].upper() + p[1:] for p in re.split(r"[-_]", name))


def texts(kind):
    for path in sorted(glob.glob(f"crates/*/{kind}/**/*.antt", recursive=True)):
        yield path, open(path, encoding="utf-8").read()


def source_names():
    """The names of types, constants and modules, and those of fields and parameters."""
    names, fields = set(), set()
    for path in glob.glob("crates/*/src/**/*.rt", recursive=True):
        text = open(path, encoding="utf-8").read()
        text = re.sub(r"//.*", "", text)
        names |= set(re.findall(r"\b(?:struct|enum|const|mod|type)\s+(\w+)", text))
        fields |= set(re.findall(r"\b(\w+)\s*:(?!:)", text))
    return names, fields


def declared():
    """Each own name: whether its value is a type, whether it stands in specs/, whether it is a field or a constructor."""
    out = {}
    for kind in ("specs", "proofs"):
        for path, text in texts(kind):
            lines = text.split("\n")
            answers = os.path.basename(path) == "Proof.antt"
            for i, line in enumerate(lines):
                m = DECL.match(line)
                if not m or line.startswith("--"):
                    continue
                rest = line[m.end():]
                j = i + 1
                while j < len(lines) and lines[j].startswith(m[1] + "    "):
                    rest += " " + lines[j].strip()
                    j += 1
                if answers and (" tie." in rest or "statement M" in rest):
                    continue
                if m[1] and len(m[1]) > 2:
                    continue
                for name in m[3].split():
                    if name in SKIP:
                        continue
                    is_type = bool(re.search(r"(^|→ )Type( [01])?$", rest.strip())) and not m[1]
                    out.setdefault(name, set()).add((is_type, kind == "specs", bool(m[1])))
    return out


def table():
    names = declared()
    src, fields = source_names()
    out = {}
    for name, kinds in names.items():
        if name in src | fields and "-" not in name:
            new = name
        elif name[:1].isupper():
            new = name
        elif all(it[0] for it in kinds):
            new = camel(name)
        else:
            new = snake(name)
        out[name] = new
    # Where a lemma would have a definition's name it gets _lem; a definition that would have a field's or a parameter's gets _value.
    groups = {}
    for name, new in out.items():
        groups.setdefault(new, []).append(name)
    for new, olds in groups.items():
        if all(it[2] for old in olds for it in names[old]):
            continue
        rank = sorted(olds, key=lambda it: (not any(k[1] for k in names[it]), "-" in it, "_" in it, it))
        for at, old in enumerate(rank):
            if at:
                out[old] = new + "_lem"
            elif old != new and new in fields | src:
                out[old] = new + ("_value" if any(k[1] for k in names[old]) else "_lem")
                print("field:", old, out[old])
    return {a: b for a, b in out.items() if a != b}, names, src


def turned(text, of, is_rt, is_answers):
    out, at = [], 0
    for m in TOKEN.finditer(text):
        word = m[0]
        if word.startswith('"'):
            continue
        new = of.get(word)
        if new is None:
            continue
        before = text[max(0, m.start() - 1):m.start()]
        if is_answers and before == "." and "-" in word:
            continue
        if before == "." and text[max(0, m.start() - 5):m.start()].endswith("tie."):
            continue
        out.append(text[at:m.start()] + new)
        at = m.end()
    out.append(text[at:])
    return "".join(out)


def turned_rt(text, of):
    """Only in clauses, ghost items and comments."""
    out, clause = [], False
    depth = 0
    for line in text.split("\n"):
        s = line.lstrip()
        if clause:
            out.append(turned(line, of, True, False))
            depth += line.count("{") - line.count("}")
            clause = depth > 0
        elif s.startswith("ghost use") or s.startswith("//"):
            out.append(turned(line, of, True, False))
        elif re.match(r"(requires|ensures|ghost)\b", s):
            out.append(turned(line, of, True, False))
            depth = line.count("{") - line.count("}")
            clause = depth > 0
        else:
            code, _, note = line.partition("//")
            out.append(code + ("//" + turned(note, of, True, False) if note else ""))
    return "\n".join(out)


def main():
    of, names, src = table()
    news = {}
    for old, new in of.items():
        news.setdefault(new, []).append(old)
    bad = 0
    for new, olds in sorted(news.items()):
        also = [new] if new in names and new not in of else []
        if len(olds) + len(also) > 1:
            print("together:", new, "<-", *olds, *also)
            bad += 1
    print(len(of), "names turned;", bad, "fall together")
    if "--list" in sys.argv:
        for old, new in sorted(of.items()):
            print(old, new)
    if "--check" in sys.argv:
        return
    for path in sorted(glob.glob("crates/**/*", recursive=True)):
        if "/out/" in path or not path.endswith((".antt", ".rt")):
            continue
        text = open(path, encoding="utf-8").read()
        new = turned_rt(text, of) if path.endswith(".rt") else turned(text, of, False, path.endswith("/Proof.antt"))
        if new != text:
            open(path, "w", encoding="utf-8").write(new)


main()
