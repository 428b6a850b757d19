#!/usr/bin/env python3
"""Spells the repository's own definitions and lemmas in snake case, in crates/ and where the pages name them.

usage: python3 tools/respell.py [--list]        at the top of the repository, once, after the library's names were turned

A name is one that a file of specs/, or one right in proofs/, declares: a definition, a lemma, a record's field, a rule set, a parameter.
Types, modules and constructors begin with a capital and stay. In a name made of several, a dash stays between two names of definitions,
and is an underscore before any other word. Where two names would fall together the second gets `_lem`. Strings, and whatever a
file of src/ names itself, stay. --list prints 'OLD NEW' and changes nothing.
"""

import glob
import re
import sys

NAME = r"[A-Za-z_][A-Za-z0-9_']*(?:-[A-Za-z0-9_']+)*"
MARKS = r"(?:(?:abbrev|unfoldable|pattern|pub|ruleset|record|data|axiom) )*"
DECLARED = re.compile(rf"^\s*{MARKS}((?:{NAME} )*{NAME})(?: [{{(][^{{}}()]*[)}}])* (?::|=) ")
DEFINED = re.compile(rf"^(?:abbrev|unfoldable) (?:pub )?({NAME}) ")
PARAMETERS = re.compile(rf"[({{]((?:{NAME} )*{NAME}) :")
IMPORT = re.compile(r"^\s*(?:pub )?use ([\w.'-]+)\.\{([^}]*)\}", re.M)
# Words of the library that stand for a definition in a name, beside the repository's own.
WORDS = set("length take drop get_or set append map replicate le lt eqb leb ltb add mul sub div mod pow zero suc nil cons not cond".split())


def texts(*patterns):
    return sorted(path for pattern in patterns for path in glob.glob(pattern, recursive=True) if "/out/" not in path)


def read(path):
    with open(path, encoding="utf-8") as file:
        return file.read()


def code(line):
    return re.sub(r"--.*", "", line)


def snake(word):
    return re.sub(r"(?<=[a-z0-9])([A-Z])(?=[a-z])", lambda m: "_" + m.group(1).lower(), word)


def to_turn(name):
    return name[0].islower() and ("-" in name or snake(name) != name)


def declared(paths):
    found = {}
    for path in paths:
        for line in read(path).split("\n"):
            line = code(line) + " "
            names = []
            match = DECLARED.match(line)
            if match and not line.lstrip().startswith("use "):
                names += match.group(1).split()
            for group in PARAMETERS.findall(line):
                names += group.split()
            for name in names:
                found.setdefault(name, set()).add(path)
    return found


def imported(paths):
    """What the files import from other than this repository."""
    names = set()
    own = {path.split("/")[1] for path in paths}
    for path in paths:
        for module, group in IMPORT.findall(read(path)):
            if module.split(".")[0] == "Rattle" and module.split(".")[1] in own:
                continue
            names |= {name.split(" as ")[0].strip() for name in group.split(",")}
    return names


def spellings():
    specs = texts("crates/*/specs/**/*.antt")
    proofs = texts("crates/*/proofs/*.antt")
    foreign = imported(specs + proofs)
    names = declared(specs + proofs)
    defined = {match.group(1) for path in specs for match in map(DEFINED.match, read(path).split("\n")) if match}
    words = WORDS | {snake(name) for name in defined}
    meant = {snake(name) for name in defined if to_turn(name)}
    met = {name for name in names if name in meant and name not in defined}
    turned, taken = {}, {name for name in names if not to_turn(name) and name not in met} | foreign
    for name in sorted((n for n in names if (to_turn(n) or n in met) and n not in foreign), key=lambda n: (n not in defined, n)):
        parts = [snake(part) for part in name.split("-")]
        new = parts[0]
        for before, part in zip(parts, parts[1:]):
            new += ("-" if before in words and part in words else "_") + part
        while new in taken:
            print(f"fell together: {name} {new}", file=sys.stderr)
            new += "_lem"
        taken.add(new)
        turned[name] = new
    return turned, met


def main():
    turned, met = spellings()
    if "--list" in sys.argv:
        for name in sorted(turned):
            print(name, turned[name])
        return
    alone = re.compile(rf"(?<![A-Za-z0-9_'·-]){NAME}(?![A-Za-z0-9_'-])")
    quoted = re.compile(r'"(?:[^"\\]|\\.)*"')

    # A name that another met may be a function's: it stays in src/, and behind a dot.
    def turn(text, source=False):
        def new(match):
            name = match.group(0)
            if name in met and (source or text[: match.start()].endswith(".")):
                return name
            return turned.get(name, name)

        return alone.sub(new, text)

    def turn_code(text):
        out, at = [], 0
        for match in quoted.finditer(text):
            out += [turn(text[at : match.start()], True), match.group(0)]
            at = match.end()
        return "".join(out + [turn(text[at:], True)])

    changed = 0
    for path in texts("crates/*/**/*.antt", "crates/*/src/*.rt", "crates/*/must-fail/*.edit"):
        text = read(path)
        new = turn_code(text) if path.endswith(".rt") else turn(text)
        if new != text:
            changed += 1
            with open(path, "w", encoding="utf-8") as file:
                file.write(new)
    # In a page only a name in backticks that a file of specs/ declares, and that has a capital within.
    in_specs = {name for name in declared(texts("crates/*/specs/**/*.antt")) if name in turned}
    for path in texts("README.md", "docs/*.md"):
        text = read(path)
        new = re.sub(r"`[^`\n]+`", lambda m: re.sub(r"\b[a-z]+[A-Z]\w*\b", lambda n: turned[n.group(0)] if n.group(0) in in_specs else n.group(0), m.group(0)), text)
        if new != text:
            changed += 1
            with open(path, "w", encoding="utf-8") as file:
                file.write(new)
    print(f"{len(turned)} names, {changed} files")


if __name__ == "__main__":
    main()
