#!/usr/bin/env python3
"""Brings the names of definitions, lemmas, fields and constructors in the documents to today's spelling.

usage: tools/turn_docs.py           at the top of the repository: rewrites what stands between backticks in README.md, docs/ and include/
       tools/turn_docs.py --check   writes nothing: lists each `FILE.antt: NAME`, and each path of a crate, that the repository has not
       tools/turn_docs.py --words   writes nothing: lists each word between backticks that no file but a document has (some are right: options, commands)

The names before and after come from the commits in docs/PORT.md (its first two lines): what a file of specs/ or proofs/
declares at the first one, and in the same place at the second.
"""
import collections
import glob
import io
import os
import re
import subprocess
import sys
import tarfile

PART = r"[A-Za-z0-9_'\u2032\u2080-\u2089\u0391-\u03c9]+(?:-[A-Za-z0-9_'\u2032\u2080-\u2089\u0391-\u03c9]+)*"
TOKEN = re.compile(r"(?<![-\w])" + PART)
DECL = re.compile(r"^( *)((?:(?:pub|abbrev|unfoldable) )*)(" + PART + r"(?: " + PART + r")*) :(?= )", re.M)
QUOTED = re.compile(r"`[^`\n]*`")


def documents():
    for path in ["README.md", *sorted(glob.glob("docs/**/*.md", recursive=True)), *sorted(glob.glob("include/*.h"))]:
        if path != "docs/PORT.md":
            yield path, open(path, encoding="utf-8").read()


def tree(commit):
    """The .antt files of a commit, by path; answers to a function's goals are left out."""
    raw = subprocess.run(["git", "archive", commit, "crates"], stdout=subprocess.PIPE, check=True).stdout
    with tarfile.open(fileobj=io.BytesIO(raw)) as files:
        for it in files:
            if it.isfile() and it.name.endswith(".antt") and os.path.basename(it.name) != "Proof.antt":
                yield it.name, files.extractfile(it).read().decode()


def table():
    with open("docs/PORT.md", encoding="utf-8") as it:
        before, after = it.read().split()[:2]
    now, of = dict(tree(after)), collections.defaultdict(set)
    for path, text in tree(before):
        olds, news = DECL.findall(text), DECL.findall(now[path])
        if len(olds) != len(news):
            sys.exit(f"{path} declares other names at {after[:7]}")
        for old, new in zip(olds, news):
            for a, b in zip(old[2].split(), new[2].split()):
                of[a].add(b)
    two = [a for a, bs in of.items() if len(bs) > 1]
    if two:
        sys.exit(f"two names for one: {' '.join(two)}")
    return {a: b for a, bs in of.items() for b in bs if a != b}


def turn():
    of, count = table(), 0
    for path, text in documents():
        new = QUOTED.sub(lambda m: TOKEN.sub(lambda w: of.get(w[0], w[0]), m[0]), text)
        if new != text:
            count += sum(a != b for a, b in zip(text.split("\n"), new.split("\n")))
            open(path, "w", encoding="utf-8").write(new)
    print(len(of), "names have another spelling;", count, "lines turned")


def is_function(path):
    """Whether the path is proofs/FN of a function, which has a folder only where it has files of its own."""
    m = re.fullmatch(r"(crates/\w+)/proofs/(?:[\w+]+/)*\+?(\w+)", path)
    sources = glob.glob(f"{m[1]}/src/**/*.rt", recursive=True) if m else []
    return any(re.search(rf"\bfn {m[2]}\b", open(it, encoding="utf-8").read()) for it in sources)


def check():
    bad = 0
    for path, text in documents():
        for number, line in enumerate(text.split("\n"), 1):
            for quoted in QUOTED.findall(line):
                m = re.fullmatch(r"`(?:crates/)?(\w+/(?:specs|proofs|src|must-fail)(?:/[\w+.-]+)*)(?:: (.*))?`", quoted)
                if not m or "/NAME/" in quoted:
                    continue
                file, names = f"crates/{m[1]}", m[2] or ""
                lacking = []
                if not os.path.exists(file) and not glob.glob(file + ".*") and not is_function(file):
                    lacking = ["no such file"]
                elif file.endswith(".antt"):
                    has = set(re.findall(PART, open(file, encoding="utf-8").read()))
                    lacking = [it for it in re.findall(PART, names) if it not in has]
                for it in lacking:
                    bad += 1
                    print(f"{path}:{number}: {quoted}: {it}")
    print(bad, "bad")
    return 1 if bad else 0


def words():
    listed = subprocess.run(["git", "ls-files"], stdout=subprocess.PIPE, check=True, universal_newlines=True).stdout.split("\n")
    has = set()
    for path in filter(os.path.isfile, listed):
        if not path.endswith(".md"):
            text = open(path, encoding="utf-8", errors="replace").read()
            has |= {*re.findall(r"[\w']+", text), *re.findall(r"[\w'-]+", text), *re.split(r"[/.]", path)}
    for path, text in documents():
        for number, line in enumerate(text.split("\n"), 1):
            for quoted in QUOTED.findall(line):
                for it in re.findall(r"(?<![\w-])[A-Za-z_][\w']*(?:-[\w']+)*", quoted):
                    if it not in has:
                        print(f"{path}:{number}: {quoted}: {it}")


if "--words" in sys.argv:
    sys.exit(words())
sys.exit(check() if "--check" in sys.argv else turn())
