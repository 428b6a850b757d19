#!/usr/bin/env python3
"""Counts the places that the design pass speaks of, in src/ of each crate (or in proofs/): tools/places.py [COMMIT].

Without a commit it counts in the working tree. For each point it prints how many, and with -v where.
"""
import re
import subprocess
import sys

PATTERNS = [
    ("1a own enums of the shape of Option or Result", "src", r"^    (Refused\(u32\)|Unknown),$"),
    ("1b a number for a refusal: functions that answer 0 or its number", "src", r"^// .*(: 0, or|: 0 or|: 0,|0, \d|refusal).*\n(?:// .*\n)*(?:    )?(?:pub )?fn [^{]*?\) -> u32\n"),
    ("1c tests of such a number", "src", r"(?:number|by_\w+|found|tested|kept) != 0 \{"),
    ("1d literal numbers of refusals", "src", r"return \d+;|Refused\(\d+\)|^\s+\d+ => |=> 1,$"),
    ("1e a flag with a value beside it", "src", r"^    (?:pub )?(?:closed|fitted|failed): bool,"),
    ("1f numbers for kinds", "src", r"^const \w+_KIND: u8"),
    ("3 loops with an index counted by hand", "src", r"while (\w+)(?: \+ 1)? <=? [^{]*\{(?:(?!\n    \}\n).)*?\n\s+\1 \+= 1;"),
    ("4a conversions of the repository's own", "src", r"\b(?:wide|index|narrow|narrow_load|hold_count)\("),
    ("4b order called as a function of two", "src", r"Bound::(?:at_most|lesser|greater|midpoint|is_nought|rounded_up)\("),
    ("5a the job named anew in a clause", "src", r"job_of startup speeds\.now holds\.now weights\.now"),
    ("5b the job's four lists as parameters", "src", r"startup: u32,\s+speeds: &\[u32\],\s+holds: &\[u16\],\s+weights: &\[u32\]"),
    ("5c a job's validity or its sums asked for in a clause", "src", r"requires \w* ?\{ [^\n]*\b(?:Valid|Ready|ReadyKept|ReadyFree) job"),
    ("5d clause names with a number", "src", r"(?:requires|ensures) \w+_\d \{"),
    ("6a a buffer with the place reached beside it", "src", r"at: usize,\s+out: &mut \[u8\]"),
    ("6b a buffer with its count in a struct", "src", r"^struct Input \{"),
    ("6c parallel arrays", "src", r"loads: &mut \[u64; BLOCKS\],\s+rates: &mut"),
    ("7 whether a hold is set, handed on as a flag", "src", r"^    held: bool,"),
    ("8a answers that the check finds alone", "proofs", r"^[\w-]+ c =\s+(?:search rules|omega arith|refl)$"),
    ("8b files of answers and invariants", "proofs", None),
]


KEYWORDS = set("fn pub let mut if else while for in return match loop break const true false self as impl mod use struct enum extern".split())


def shape_of(text):
    """The text of a function with each name replaced by its order of appearance, and each number by one sign: what twins share."""
    names = {}
    out = []
    for token in re.findall(r"[A-Za-z_]\w*|\d[\d_]*\w*|\S", text):
        if re.match(r"[A-Za-z_]", token) and token not in KEYWORDS:
            token = f"n{names.setdefault(token, len(names))}"
        elif token[0].isdigit():
            token = "#"
        out.append(token)
    return tuple(out)


def functions_of(text):
    """Each function's name, place and text without its clauses: parameters and body."""
    for it in re.finditer(r"^( *)(?:pub )?(?:extern \"C\" )?(?:const )?fn (\w+).*?\n\1\}\n", text, re.M | re.S):
        whole = re.sub(r"//[^\n]*", "", it[0])
        whole = re.sub(r"\n\s+(?:requires|ensures)\b.*?(?=\n\s*(?:requires|ensures)\b|\n\s*\{\n)", "", whole, flags=re.S)
        yield it[2], it.start(), whole


def twins_of(texts):
    groups = {}
    for name, text in sorted(texts.items()):
        if "/src/" not in name:
            continue
        for function, start, whole in functions_of(text):
            shape = shape_of(whole)
            if len(shape) >= 40:
                groups.setdefault(shape, []).append(f"{name}:{text.count(chr(10), 0, start) + 1} {function}")
    return [it for it in groups.values() if len(it) > 1]


def text_of(commit, name):
    if commit is None:
        with open(name, encoding="utf-8") as it:
            return it.read()
    return subprocess.run(["git", "show", f"{commit}:{name}"], stdout=subprocess.PIPE, check=True, text=True).stdout


def files_of(commit):
    words = ["git", "ls-files"] if commit is None else ["git", "ls-tree", "-r", "--name-only", commit]
    return subprocess.run(words + (["crates"] if commit is None else ["--", "crates"]), stdout=subprocess.PIPE, check=True, text=True).stdout.split("\n")


def main():
    says = "-v" in sys.argv
    named = [it for it in sys.argv[1:] if it != "-v"]
    commit = named[0] if named else None
    texts = {}
    for name in files_of(commit):
        if re.search(r"/src/.*\.rt$|/proofs/.*\.antt$", name):
            texts[name] = text_of(commit, name)
    groups = twins_of(texts)
    print(f"{sum(len(it) - 1 for it in groups):5}  2 functions that are another one but for names, types and numbers, in {len(groups)} groups")
    if says:
        for it in groups:
            print("    " + ", ".join(it))
    for title, folder, pattern in PATTERNS:
        count = 0
        for name, text in sorted(texts.items()):
            if f"/{folder}/" not in name:
                continue
            if pattern is None:
                count += bool(re.search(r"/(Answers|Invariants)\.antt$", name))
                continue
            found = list(re.finditer(pattern, text, re.M | re.S if title.startswith("3") else re.M))
            count += len(found)
            if says:
                for it in found:
                    print(f"    {name}:{text.count(chr(10), 0, it.start()) + 1}")
        print(f"{count:5}  {title}")


if __name__ == "__main__":
    main()
