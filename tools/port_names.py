#!/usr/bin/env python3
"""Brings the repository's own definitions and lemmas to snake case, and the crate log to the name reading_log.

Run once, at the top, after the toolchain's own script: python3 tools/port_names.py. Functions of src/ keep their names.
"""

import glob
import os
import re
import subprocess
import sys

# The toolchain has a library of this name.
CRATES = {"log": "reading_log"}
# Names whose plain turning would fall together with another name in scope.
OTHER = {"call-in": "read_call"}
SIGNATURE = re.compile(
    r"^( *)(?:(?:abbrev|unfoldable|pub|data|record) )*([^\s:(){}⟦⟧.,;]+)((?: \([^)]*\)| \{[^}]*\})*) : (.*)$", re.M
)
TOKEN = re.compile(r"[^\s(){}⟦⟧.,;\[\]λ]+")


def snake(name):
    if name[0].isupper():
        return "".join(part[0].upper() + part[1:] for part in name.split("-"))
    words = re.sub(r"(?<=[a-z0-9])(?=[A-Z])", "-", name).split("-")
    return "_".join(word[0].lower() + word[1:] for word in words if word)


def sources():
    return sorted(glob.glob("crates/*/specs/**/*.antt", recursive=True) + glob.glob("crates/*/proofs/**/*.antt", recursive=True))


def names():
    """What the repository defines with a dash or a capital inside, and which of that are fields or constructors."""
    tops, parts = {}, {}
    for path in sources():
        for m in SIGNATURE.finditer(open(path).read()):
            indent, name, _, kind = m.groups()
            if kind.startswith("goal.") or not re.search(r"-|[a-z0-9][A-Z]", name):
                continue
            turned = OTHER.get(name, snake(name))
            if turned != name:
                (parts if indent else tops)[name] = turned
    return tops, parts


def turn(text, tops, parts):
    def one(m):
        token = m.group(0)
        behind = text[m.start() - 1] if m.start() else " "
        if behind == "." and text[m.start() - 2 : m.start() - 1] != " ":
            return parts.get(token, token)
        return tops.get(token, parts.get(token, token))

    return TOKEN.sub(one, text)


def rename_crates():
    for old, new in CRATES.items():
        if os.path.isdir("crates/" + old):
            subprocess.run(["git", "mv", "crates/" + old, "crates/" + new], check=True)
        for path in sources() + glob.glob("crates/*/src/**/*.rt", recursive=True) + ["crates.txt"]:
            text = open(path).read()
            text = re.sub(rf"\bRattle\.{old}\.", f"Rattle.{new}.", text)
            if path.endswith(".rt"):
                text = re.sub(rf"^(\s*(?:pub )?use ){old}::", rf"\g<1>{new}::", text, flags=re.M)
            if path == "crates.txt":
                text = re.sub(rf"(?m)(^|(?<= )){old}(?=[: \n])", new, text)
            open(path, "w").write(text)


def main():
    rename_crates()
    tops, parts = names()
    for path in sources() + sorted(glob.glob("crates/*/src/**/*.rt", recursive=True)):
        text = open(path).read()
        turned = turn(text, tops, parts)
        if turned != text:
            open(path, "w").write(turned)
    for old in sorted(tops | parts):
        print(old, (tops | parts)[old])


if __name__ == "__main__":
    sys.exit(main())
