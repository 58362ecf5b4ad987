#!/usr/bin/env python3
"""Brings the names of this repository's own definitions and lemmas to the spelling of today's Rattle.

usage: tools/respell.py        at the top of the repository, once, right after the kit's port.py and before anything is committed

A definition, a field or a lemma is written in snake case: `stateAfter` becomes `state_after`, `sBox-lt` becomes `s_box-lt`. A dash that joins two names stays.
The operator of choice has the brackets of the library's own, `if b then x else y`, which `rt ci` refuses for another definition: it becomes
`when b then x else y`. port.py has turned some names that a library spells alike: where a lemma `part-at` and a definition `partAt` then had one name, the lemma gets its dash back. The
commit that is checked out (HEAD) tells which was which. Names of functions, types, variants and modules, strings and comments of code stay as they are.
"""

import collections
import os
import re
import subprocess

DECLARED = re.compile(
    r"^\s*(?:(?:pub|abbrev|unfoldable|data|record|private)\s+)*([^\s(){}:;,.@\"]+)((?:\s+[\(\{][^:=]*:[^=]*?[\)\}]|\s+\{[^}]*\})*)\s*:\s", re.M
)
# what a name is made of, and what it is not
TOKEN = re.compile(r"--[^\n]*|\"(?:[^\"\\]|\\.)*\"|[^\s(){}.;,@\"«»\[\]:`]+")
CAMEL = re.compile(r"(?<=[a-z0-9])([A-Z])")
# the operator of choice: the word that opens it, and its name
CHOICE = {"if": "when", "if◌then◌else◌": "when◌then◌else◌"}
# fields of records of definitions that stand behind a name which no line declares alone
MORE = ["endCases", "readLock"]


def files(*endings):
    for folder, folders, names in os.walk("crates"):
        folders[:] = sorted(f for f in folders if f != "out")
        for name in sorted(names):
            if name.endswith(endings):
                yield os.path.join(folder, name)


def read(path):
    with open(path, encoding="utf-8") as f:
        return f.read()


def before(path):
    done = subprocess.run(["git", "show", "HEAD:" + path], capture_output=True, text=True)
    return done.stdout if done.returncode == 0 else ""


def snake(name):
    return CAMEL.sub(lambda m: "_" + m.group(1).lower(), name)


def declared(texts):
    names = set()
    for text in texts:
        names.update(m.group(1) for m in DECLARED.finditer(re.sub(r"--[^\n]*", "", text)))
    return names


def is_camel(name):
    return re.match(r"[a-z]", name) is not None and CAMEL.search(name) is not None


def tokens(text):
    return [m for m in TOKEN.finditer(text) if not m.group(0).startswith(("--", '"'))]


def restored(path, text, pairs):
    """Gives a lemma its dash back: pairs has, for a spelling, the dashed name of the lemma and the camel name of the definition."""
    old = before(path)
    for spelling, (dashed, camel) in pairs.items():
        if dashed not in old:
            continue
        were = [m.group(0) for m in tokens(old) if m.group(0) in (spelling, dashed, camel)]
        now = [m for m in tokens(text) if m.group(0) in (spelling, dashed, camel)]
        if len(were) != len(now):
            print(f"left: {path}: {spelling}: {len(were)} places before, {len(now)} now")
            continue
        for was, m in reversed(list(zip(were, now))):
            if was == dashed:
                text = text[: m.start()] + dashed + text[m.end() :]
    return text


def turned(text, table):
    return TOKEN.sub(lambda m: table.get(m.group(0), m.group(0)), text)


def clauses(text, table):
    """The names in clauses, ghost lines and comments' code spans of a source: a word with a capital inside is no name of the code's own."""
    return re.sub(r"(?<![\w'-])[a-z][\w']*(?:-[\w']+)*", lambda m: table.get(m.group(0), m.group(0)), text)


def parameters(path, text, words):
    """Prints where a parameter hides a definition that its function's clauses name."""
    for m in re.finditer(r"\bfn (\w+)[^(]*\(([^)]*)\)([^{}]*(?:\{[^{}]*\}\s*(?=ensures|requires|\{))*)", text):
        names = set(re.findall(r"(\w+)\s*:", m.group(2)))
        cited = set(re.findall(r"[\w']+", m.group(3)))
        for name in sorted(names & cited & words):
            print(f"look: {path}: fn {m.group(1)}: the parameter {name} has the name of a definition")


def main():
    sources = list(files(".antt"))
    old_names = declared(before(p) for p in sources)
    names = declared(read(p) for p in sources) | set(MORE)
    table = {n: snake(n) for n in names if is_camel(n)}
    spelled = collections.defaultdict(set)
    for n in old_names:
        if "-" in n and n.replace("-", "_") != n:
            spelled[n.replace("-", "_")].add(n)
    pairs = {}
    for camel in sorted({n for n in old_names if is_camel(n)}):
        for dashed in spelled.get(snake(camel), ()):
            if "-" in dashed and not CAMEL.search(dashed):
                pairs[snake(camel)] = (dashed, camel)
    for path in sources:
        text = read(path)
        new = turned(restored(path, text, pairs), table | CHOICE)
        if new != text:
            with open(path, "w", encoding="utf-8") as f:
                f.write(new)
    for path in files(".rt"):
        text = read(path)
        new = clauses(text, table)
        parameters(path, new, set(table.values()))
        if new != text:
            with open(path, "w", encoding="utf-8") as f:
                f.write(new)
    print(f"respelled: {len(table)} names; {len(pairs)} lemmas keep their dash beside a definition")


main()
