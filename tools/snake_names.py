#!/usr/bin/env python3
"""Spells this repository's own definitions and lemmas in snake case: `columnOf` and `column-of` become `column_of`.

usage: tools/snake_names.py [--check] at the top of the repository

A name turns if an .antt file below crates/ declares it, it begins with a small letter, and it has a dash or a capital. Whole words turn, in specs/, proofs/,
the clauses and comments of src/, must-fail edits, and between backticks and in the tables of README.md and docs/. What stays: types and modules, names that a
file imports from a library of the kit, there, functions of src/, strings, and the names of goals (declared at a type `tie.X` or `goal.X`), in the file that
declares them. A name whose new spelling is already declared and a word of a file that has the old one is told ('meets:') and has another in OTHER.
"""
import collections
import os
import re
import subprocess
import sys

WORD = re.compile(r"[^\s(){}.;,@\"«»|\[\]`]+")
DECLARED = re.compile(r"(?m)^ *(?:abbrev |unfoldable |pub |opaque |ghost )*([^\s(){}.;,@\"«»:]+)(?: \{[^{}\n]*\})* :(?![:=])(.*)$")
GOAL = re.compile(r" *(tie|goal)\.")
STRING = re.compile(r'"(?:[^"\\\n]|\\.)*"')
IMPORTED = re.compile(r"(?m)^use (?!Rattle\.(?!std\b))[^;{\n]*\{([^}\n]*)\}")
# names that would fall together with another in a file: a lemma about a definition, and what it is called then
FALLS = """after-sys at-column bank-numbers bank-rows blank-plan by-words clocks-of divider-p first-divider fold-max fold-min hertz-at is-integer is-no-part
p-clock q-clock per-clock plan-numbers plan-rows pll-part reason-by slower-a src-word third-part typed-numbers vco-whole walk-numbers none-zero in-range is-set
set-to no-part not-zero"""
OTHER = {n: n.replace("-", "_") + "_is" for n in FALLS.split()} | {"sysCk": "sys_ck_word", "afterRead": "read_after"}


def snake(name):
    words = re.sub(r"(?<=[a-zA-Z0-9])([A-Z])", lambda m: "_" + m.group(1).lower(), name)
    return words.replace("-", "_")


def texts(*endings):
    for folder, dirs, files in os.walk("crates"):
        dirs[:] = sorted(d for d in dirs if d != "out")
        for f in sorted(files):
            if f.endswith(endings):
                yield os.path.join(folder, f)


def read(path):
    with open(path, encoding="utf-8") as f:
        return f.read()


def library(kit):
    found = set()
    for folder, dirs, files in os.walk(kit):
        for f in files:
            if f.endswith(".antt"):
                found.update(m.group(1) for m in DECLARED.finditer(read(os.path.join(folder, f))))
    return found


def main(argv):
    said = subprocess.run(["rt", "doc"], stdout=subprocess.PIPE, text=True, check=True).stdout
    kit = os.path.join(os.path.dirname(said.strip()), "rattle")
    theirs = library(kit)
    declared = collections.defaultdict(set)
    goals = collections.defaultdict(set)
    for path in texts(".antt"):
        for m in DECLARED.finditer(read(path)):
            if GOAL.match(m.group(2)):
                goals[path].add(m.group(1))
            else:
                declared[m.group(1)].add(path)
    turn = {n: OTHER.get(n, snake(n)) for n in declared if n[:1].islower() and (re.search(r"[a-zA-Z0-9][A-Z]", n) or "-" in n) and n.isascii()}
    stays = collections.defaultdict(set)
    for path in texts(".antt", ".rt"):
        for m in IMPORTED.finditer(read(path)):
            stays[path].update(m.group(1).replace(" ", "").split(","))
    print("a library's too:", *sorted(n for n in turn if n in theirs))
    where = collections.defaultdict(set)
    for n, new in turn.items():
        where[new].add(n)
    bad = 0
    for path in texts(".antt", ".rt", ".edit"):
        words = set(WORD.findall(read(path)))
        for n in words & turn.keys():
            if n in goals[path] or n in stays[path]:
                continue
            new = turn[n]
            if path.endswith(".antt") and new in words and (new in declared or new in theirs) or len(where[new] & words) > 1:
                print(f"meets: {n} -> {new} in {path}")
                bad += 1
    print(f"{len(turn)} names turn; {bad} places where two would fall together")
    if "--check" in argv:
        return 0

    def turned(text, stay):
        return WORD.sub(lambda m: turn.get(m.group(), m.group()) if m.group() not in stay else m.group(), text)

    for path in texts(".antt", ".rt", ".edit"):
        old = read(path)
        if path.endswith(".antt"):
            new = turned(old, goals[path] | stays[path])
        else:
            new, last = "", 0
            for m in STRING.finditer(old):
                new += turned(old[last : m.start()], stays[path]) + m.group()
                last = m.end()
            new += turned(old[last:], stays[path])
        if new != old:
            with open(path, "w", encoding="utf-8") as f:
                f.write(new)
    for path in ["README.md"] + [os.path.join("docs", f) for f in sorted(os.listdir("docs")) if f.endswith(".md")]:
        old = read(path)
        new = re.sub(r"`[^`\n]+`", lambda m: turned(m.group(), ()), old)
        if new != old:
            with open(path, "w", encoding="utf-8") as f:
                f.write(new)
    return 0


raise SystemExit(main(sys.argv[1:]))
