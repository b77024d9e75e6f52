#!/usr/bin/env python3
"""Groups of functions whose bodies differ in names and numbers alone: tools/twins.py [COMMIT]. Bodies of one short expression do not count."""
import re
import subprocess
import sys
from collections import defaultdict

COMMIT = sys.argv[1] if len(sys.argv) > 1 else "HEAD"
WORDS = {"if", "else", "while", "for", "in", "let", "mut", "return", "match", "as", "break", "true", "false", "Some", "None", "Ok", "Err"}
HEAD = re.compile(r"^( *)(?:#\[.*\]\s*)?(?:pub )?(?:extern \"C\" )?fn (\w+)", re.M)


def git(*args):
    return subprocess.run(["git", *args], check=True, capture_output=True, text=True).stdout


def functions(text):
    for head in HEAD.finditer(text):
        indent = head.group(1)
        body = re.compile(r"^" + indent + r"\{\n(.*?)^" + indent + r"\}", re.M | re.S).search(text, head.end())
        inline = re.compile(r"[)>\w] \{\n(.*?)^" + indent + r"\}", re.M | re.S).search(text, head.end())
        found = min((m for m in (body, inline) if m), key=lambda m: m.start(), default=None)
        if found:
            yield head.group(2), found.group(1)


def shape(body):
    body = re.sub(r"//.*", "", body)
    body = re.sub(r"\b[A-Za-z_]\w*(?:::\w+)*\b", lambda m: m.group(0) if m.group(0) in WORDS else "_", body)
    body = re.sub(r"\d[\d_]*", "0", body)
    body = re.sub(r"\s+", " ", body)
    body = re.sub(r"_(, _)+", "_", body)
    return body.replace(", )", ")").strip()


groups = defaultdict(list)
for path in git("ls-tree", "-r", "--name-only", COMMIT).splitlines():
    if re.fullmatch(r"crates/[^/]+/src/.*\.rt", path) and "_examples" not in path:
        for name, body in functions(git("show", f"{COMMIT}:{path}")):
            key = shape(body)
            if len(key) >= 40:
                groups[key].append(f"{path[7:-3].replace('/src/', '::')}::{name}")
twins = [sorted(names) for names in groups.values() if len(names) > 1]
for names in sorted(twins):
    print("  " + ", ".join(names))
print(f"{len(twins)} groups, {sum(map(len, twins))} functions")
