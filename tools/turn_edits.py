#!/usr/bin/env python3
"""Brings the must-fail edits to today's spelling, from the commit before it.

usage: tools/turn_edits.py LANDED [EDIT]..     at the top of the repository: rewrites the edits named, or all of crates/*/must-fail
       tools/turn_edits.py --check             rewrites none: says which edits do not fit the present files

LANDED is the commit at which the edits fitted. For each pair `old:`, `new:` it takes the line of the file of LANDED that holds the
old text, and the same line as the pair changes it, and turns both: names as the files of LANDED and the present ones, read beside
each other, have them, projections written tight, clauses with `result`. It trusts this only where the unchanged line, turned, is a
line of the present file; then the turned pair says the same wrong thing as before. An import is turned into names added to the
present file's import of the same module, or to a line of its own. It says which edits it turned, and `by hand:` of each that it did not.
"""
import collections
import difflib
import glob
import os
import re
import subprocess
import sys

PART = r"[A-Za-z0-9_'«»\u2080-\u2089\u0391-\u03c9]+(?:-[A-Za-z0-9_'\u2080-\u2089\u0391-\u03c9]+)*"
WORD = re.compile(PART)
NAME = rf"{PART}(?:\.{PART})*"
LEX = re.compile(rf'\s+|"(?:[^"\\]|\\.)*"|\.{PART}|{NAME}|.')
LIBRARY = {"getD": "get_or"}
OPERATORS = set("≡ ≤ < + - * / % ^ ∷ ++ × ⊎ → ↔ = : ; && || ∧ ∨ { } ( ) , λ in let record if then else \\".split())


def plain(text):
    return re.sub(r"[^a-z0-9≡<≤∷]", "", text.lower())


def show(commit, path):
    r = subprocess.run(["git", "show", f"{commit}:{path}"], capture_output=True, encoding="utf-8")
    return r.stdout if r.returncode == 0 else None


def beside(old, new):
    """Lines of old with the lines of new that have the same letters: (i, j) by number."""
    a, b = [plain(x) for x in old], [plain(x) for x in new]
    out = []
    for block in difflib.SequenceMatcher(None, a, b, autojunk=False).get_matching_blocks():
        out += [(block.a + k, block.b + k) for k in range(block.size)]
    return out


def learn(old, new, names):
    for i, j in beside(old, new):
        v, w = WORD.findall(old[i]), WORD.findall(new[j])
        if len(v) == len(w):
            for x, y in zip(v, w):
                if plain(x) == plain(y):
                    names[x][y] += 1


class Turner:
    def __init__(self, commit):
        self.commit, self.old, self.own, self.all = commit, {}, {}, collections.defaultdict(collections.Counter)
        for path in sorted(glob.glob("crates/*/src/**/*.rt", recursive=True) + glob.glob("crates/*/specs/**/*.antt", recursive=True) + glob.glob("crates/*/proofs/*.antt")):
            old = show(commit, path)
            if old is None:
                continue
            self.old[path] = old
            names = collections.defaultdict(collections.Counter)
            learn(old.split("\n"), open(path, encoding="utf-8").read().split("\n"), names)
            self.own[path] = {x: c.most_common(1)[0][0] for x, c in names.items()}
            for x, c in names.items():
                self.all[x].update(c)

    def name(self, path, x):
        if x in self.own[path]:
            return self.own[path][x]
        return self.all[x].most_common(1)[0][0] if x in self.all else LIBRARY.get(x, x)

    def words(self, path, text):
        return WORD.sub(lambda m: self.name(path, m[0]), text)

    def turned(self, path, line):
        """A line of LANDED's, turned."""
        if re.search(r"\b(ensures|requires)\b.*⌜", line):
            m = re.search(r"λ (\w+)\. ⌜", line)
            if m:
                line = re.sub(rf"(?<![\w.]){m[1]}(?![\w'])", "result", line.replace(m[0], "", 1))
            line = re.sub(r"\{ +", "{ ", line.replace("⌜ ", "").replace(" ⌝", ""))
            line = tight(self.words(path, line))
            line = re.sub(rf"\(now (\w+)\.entry\)", r"\1.now", line)
            return re.sub(rf"\(now ({NAME})\)", r"\1.now", line)
        if path.endswith(".rt"):
            return line
        return tight(self.words(path, line))


def tight(line):
    """Spaced projections written tight: `f (x .a .b)` is `f x.a.b`, `f x .a` is `(f x).a`."""
    toks = [t for t in LEX.findall(line)]
    # start: the place in `out` where the open application begins; opened: the same of those round it
    out, start, opened = [], 0, []
    i = 0
    while i < len(toks):
        t = toks[i]
        if t.startswith(".") and len(t) > 1 and out and out[-1].isspace():
            while out and out[-1].isspace():
                out.pop()
            k = start
            while k < len(out) and out[k].isspace():
                k += 1
            args = "".join(out[k:])
            alone = re.fullmatch(rf"{NAME}", args) or whole(args)
            out[k:] = [(args if alone else "(" + args + ")") + t]
            # further projections of the same value
            while i + 2 < len(toks) and toks[i + 1].isspace() and toks[i + 2].startswith(".") and len(toks[i + 2]) > 1:
                out[-1] += toks[i + 2]
                i += 2
            i += 1
            continue
        if t in "([{":
            out.append(t)
            opened.append((start, len(out) - 1))
            start = len(out)
        elif t in ")]}":
            out.append(t)
            if opened:
                start, at = opened.pop()
                inner = "".join(out[at + 1:-1])
                if t == ")" and re.fullmatch(rf"{NAME}(?:\.{PART})+|\([^()]*\)(?:\.{PART})+", inner) and was_spaced(toks, i):
                    out[at:] = [inner]
                else:
                    out[at:] = ["".join(out[at:])]
            else:
                start = len(out)
        elif t in OPERATORS or t == ".":
            out.append(t)
            start = len(out)
        else:
            out.append(t)
        i += 1
    return "".join(out)


def whole(text):
    """Whether the text is one bracket, or one with projections behind it."""
    m = re.fullmatch(rf"(\(.*\))(?:\.{PART})*", text)
    if not m:
        return False
    depth = 0
    for k, c in enumerate(m[1]):
        depth += (c == "(") - (c == ")")
        if depth == 0 and k < len(m[1]) - 1:
            return False
    return True


def was_spaced(toks, close):
    """Whether the bracket that closes at `close` held a spaced projection as its last word."""
    return close >= 2 and toks[close - 1].startswith(".") and toks[close - 2].isspace()


def pairs(text):
    """An edit as its file, its comments, its pairs."""
    file, out, notes, old = None, [], [], None
    for line in text.split("\n"):
        if line.startswith("file: "):
            file = line[6:]
        elif line.startswith("old: "):
            old = line[5:]
        elif line.startswith("new:"):
            out.append((old, line[5:]))
        elif line.startswith("#"):
            notes.append(line)
        elif line:
            raise SystemExit(f"not read: {line}")
    return file, notes, out


def around(text, old):
    """The whole lines of text that hold old, and where: (line, start of old in it). None if it does not stand once."""
    if text.count(old) != 1:
        return None
    at = text.index(old)
    a = text.rfind("\n", 0, at) + 1
    b = text.find("\n", at + len(old))
    return text[a:b if b >= 0 else len(text)], at - a


def use_names(line):
    m = re.match(r"(ghost )?use ([^{}]+)\.\{(.*)\};?$", line)
    return m and (m[1] or "", m[2], [x.strip() for x in m[3].split(",")])


def turn_use(turner, path, old, new, now):
    """A pair of import lines as pairs on the present text, or None."""
    before, after = use_names(old), [use_names(x) for x in re.split(r"(?<=;) (?=ghost use)", new)]
    if not before or not all(after):
        return None
    add = []
    for ghost, module, names in after:
        have = before[2] if module == before[1] else []
        extra = [turner.name(path, x) if not x.startswith("_") else re.sub(r"(?<![A-Za-z0-9])_|_(?![A-Za-z0-9])", "◌", x) for x in names if x not in have]
        gone = [turner.name(path, x) for x in before[2] if x not in names] if module == before[1] else []
        add.append((module, extra, gone))
    out = []
    text = now
    prelude = re.search(r"^(ghost )?use Rattle\.std\.specs\.Prelude\.\{(.*?)\};?$", text, re.M)
    for module, extra, gone in add:
        if not extra and not gone:
            continue
        if module == "mathlib.Core.Option":
            line = re.search(r"^(ghost )?use Rattle\.std\.proofs\.Math\.Option\.\{(.*?)\};?$", text, re.M)
        elif re.match(r"(mathlib|Prim|lib)\.", module):
            line = prelude
        else:
            to = re.sub(r"·specs\.specs\.", ".specs.", module).replace("·", ".").replace("the-variants", "TheVariants")
            line = re.search(rf"^(ghost )?use {re.escape(to)}\.\{{(.*?)\}};?$", text, re.M)
        if not line:
            return None
        held = [x.strip() for x in line[2].split(",")]
        have = [x for x in held if x not in gone]
        extra = [x for x in extra if x not in have]
        if have + extra == held:
            continue
        grown = line[0].replace("{" + line[2] + "}", "{" + ", ".join(have + extra) + "}")
        out.append((line[0], grown))
        text = text.replace(line[0], grown, 1)
        prelude = re.search(r"^(ghost )?use Rattle\.std\.specs\.Prelude\.\{(.*?)\};?$", text, re.M)
    return out


def turn(turner, edit):
    """The text of the edit, turned; or why not."""
    crate = edit.split("/")[1]
    text = show(turner.commit, edit) or open(edit, encoding="utf-8").read()
    file, notes, given = pairs(text)
    path = f"crates/{crate}/{file}"
    if path not in turner.old or not os.path.exists(path):
        return None, f"no {path}"
    was, now, out = turner.old[path], open(path, encoding="utf-8").read(), []
    for old, new in given:
        held = around(was, old)
        if held is None:
            return None, f"not once at the commit: {old}"
        line, at = held
        changed = line[:at] + new + line[at + len(old):]
        was = was.replace(old, new, 1)
        if re.match(r"(ghost )?use ", line):
            more = turn_use(turner, path, line, changed, now)
            if more is None:
                return None, f"an import: {old} / {new}"
        else:
            a, b = turner.turned(path, line), turner.turned(path, changed)
            if a not in now.split("\n"):
                close = difflib.get_close_matches(a, now.split("\n"), 1, 0.5)
                return None, "the line turned is not there:\n      " + a + "\n      " + (close[0] if close else "")
            if now.split("\n").count(a) != 1:
                return None, f"more than once: {a}"
            x, y = turner.turned(path, old), turner.turned(path, new)
            if a.count(x) == 1 and a.replace(x, y) == b and now.count(x) == 1:
                a, b = x, y
            if a == b:
                return None, f"says the same: {a}"
            more = [(a, b)]
        for a, b in more:
            now = now.replace(a, b, 1)
        out += more
    for a, b in out:
        if re.search(r"\b(mathlib|Prim|lib)\.|·|the-variants|⌜|\b_\S+_\b", b):
            return None, f"an import in another place: {b}"
    return "\n".join(notes + [f"file: {file}"] + [f"{k}: {x}" for pair in out for k, x in zip(("old", "new"), pair)]) + "\n", None


def check():
    """Whether each old text stands once in its file, the pairs before it made, and whether the edit changes the file."""
    bad = 0
    for edit in sorted(glob.glob("crates/*/must-fail/*.edit")):
        file, _, given = pairs(open(edit, encoding="utf-8").read())
        was = now = open(f"crates/{edit.split('/')[1]}/{file}", encoding="utf-8").read()
        for old, new in given:
            if now.count(old) != 1:
                print(f"{edit}: stands {now.count(old)} times: {old}")
                bad += 1
            now = now.replace(old, new, 1)
        if now == was:
            print(f"{edit}: changes nothing")
            bad += 1
    print(f"{bad} that do not fit")
    return 1 if bad else 0


def main():
    if sys.argv[1:] == ["--check"]:
        raise SystemExit(check())
    commit, edits = sys.argv[1], sys.argv[2:] or sorted(glob.glob("crates/*/must-fail/*.edit"))
    turner = Turner(commit)
    done = same = 0
    for edit in edits:
        text, why = turn(turner, edit)
        if text is None:
            print(f"by hand: {edit}: {why}")
            continue
        done += 1
        if text == open(edit, encoding="utf-8").read():
            same += 1
        else:
            open(edit, "w", encoding="utf-8").write(text)
    print(f"{done} of {len(edits)} turned, {same} of them as they were")


if __name__ == "__main__":
    main()
