#!/usr/bin/env python3
"""Brings the names of definitions, lemmas and fields that port.py left to today's spelling: words in snake case.

usage: python3 tools/respell.py        at the top of a checkout, once, right after port.py

It reads every .antt and .rt file of crates/ and the must-fail edits, and writes each name that begins with a small letter and has a capital inside
(`maxText`, `byWeight-sorted`) in snake case (`max_text`, `by_weight-sorted`), everywhere. Names of the kit, which have the capital behind `_`, stay
(`uint_Lawful`), and so do strings. Names that would fall together with another are in APART.
"""

import glob
import re
import sys

# Names that would fall together with another of the same file, and what the kit calls by another word now.
APART = {
    "foundIn": "numbers_found_in",  # a lemma of LineByLaws is found_in
    "lastDigits": "last_digits_of",  # a lemma of WriteNumeralLaws is last_digits
    "sumFirst": "sum_of_first",  # a lemma of BucketLaws is sum_first
    "ofTimetable": "OfTimetable",  # a type
    "dropN": "drop_list",
}
KIT = {"getD": "get_or"}

NAME = re.compile(r"(?<![\w'-])[a-z][A-Za-z0-9'_-]*[A-Z][\w'-]*")
STRING = re.compile(r'b?"(?:[^"\\]|\\.)*"|--[^\n]*|//[^\n]*')


def snake(word):
    if word in APART:
        return APART[word]
    if re.search(r"_[A-Z]", word):
        return word
    return "-".join(KIT.get(s) or re.sub(r"(?<=[a-z0-9])([A-Z])", lambda m: "_" + m.group(1).lower(), s) for s in word.split("-"))


def files(kinds):
    return sorted(f for k in kinds for f in glob.glob("crates/**/*." + k, recursive=True) if "/out/" not in f)


def read(f):
    with open(f, encoding="utf-8") as it:
        return it.read()


def main():
    code = files(["antt", "rt"])
    names = set()
    for f in code:
        names |= set(NAME.findall(STRING.sub("", read(f))))
    spelled = {n: snake(n) for n in names}
    together = {}
    for n, s in spelled.items():
        together.setdefault(s, []).append(n)
    for s, ns in together.items():
        if len(ns) > 1:
            print(f"respell: {ns} fall together as {s}", file=sys.stderr)
            return 1
    changed = 0
    for f in code + files(["edit"]):
        old = read(f)
        strings = f.endswith(".rt")
        out, at = [], 0
        for m in STRING.finditer(old) if strings else []:
            out.append(NAME.sub(lambda x: spelled.get(x.group(0), x.group(0)), old[at : m.start()]))
            text = m.group(0)
            out.append(text if not text.startswith("//") else NAME.sub(lambda x: spelled.get(x.group(0), x.group(0)), text))
            at = m.end()
        # an edit may have names that port.py has turned in the code: so any name there
        rest = (lambda x: snake(x.group(0))) if f.endswith(".edit") else (lambda x: spelled.get(x.group(0), x.group(0)))
        out.append(NAME.sub(rest, old[at:]))
        new = "".join(out)
        if new != old:
            with open(f, "w", encoding="utf-8") as it:
                it.write(new)
            changed += 1
    print(f"respell: {len(names)} names, {changed} files")
    return 0


if __name__ == "__main__":
    raise SystemExit(main())
