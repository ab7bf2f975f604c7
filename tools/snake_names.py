#!/usr/bin/env python3
"""Brings this repository's own names in definitions and lemmas to the kit's spelling.

usage: python3 tools/snake_names.py        at the top of the repository, once, right after the kit's port.py

Words are in snake case, types in upper camel case: `read-links` becomes `read_links`, `Whole-walk` becomes `WholeWalk`. Own
names are those that a file of specs/ or proofs/ of a listed crate declares, and the other names that a `ghost use` gives.
Names of the kit's library and names that Rattle makes keep their spelling, and so do functions of src/, exported names,
strings, inputs and outputs. In comments and pages only what stands between backticks is turned.
"""

import os
import re
import sys

TOKEN = re.compile(r"[^\s(){}\[\];,.\"λ@`⌜⌝:]+")
DECLARED = re.compile(
    r"\s*(?:(?:abbrev|unfoldable|pub|module|record|data|ruleset|irreducible)\s+)*([^\s(){}:]+)\s*(?::(?=\s|$)|[({].*:)"
)
RECORD = re.compile(r"\s*(?:pub )?(?:record|data)\s+(?:pub )?([^\s(){}:]+)")
USE = re.compile(r"\s*(?:pub )?(?:ghost )?use ([^\s{]+?)\.\{(.*)\}")
MADE = ("invariant-", "decreases-")


def files(ends):
    for top in ("crates", "docs", "tests", "README.md"):
        if os.path.isfile(top):
            yield top
        for folder, dirs, names in os.walk(top):
            dirs[:] = sorted(d for d in dirs if d not in ("out", "vectors"))
            for name in sorted(names):
                if name.endswith(ends):
                    yield os.path.join(folder, name)


def read(path):
    with open(path, encoding="utf-8") as f:
        return f.read()


def crates():
    with open("crates.txt", encoding="utf-8") as f:
        return {line.split("#")[0].split(":")[0].split()[0] for line in f if line.split("#")[0].strip()}


def own(module, listed):
    parts = module.split(".")
    return parts[0] == "Rattle" and len(parts) > 1 and parts[1] in listed and not made_module(parts)


def made_module(parts):
    return "declared" in parts or parts[-1] in ("Tie", "Statement", "Goals", "Given")


def dashed(name):
    return "-" in name[1:-1] and not name.startswith(MADE)


def spelled(name):
    parts = name.split("-")
    if name[0].isupper():
        return parts[0] + "".join(p[:1].upper() + p[1:] for p in parts[1:])
    return "_".join(parts)


def names(listed):
    """The repository's own names with a dash, and for each file the names that it takes from elsewhere."""
    mine, foreign, declared = set(), {}, set()
    for path in files((".antt", ".rt")):
        away = foreign.setdefault(path, set())
        for line in read(path).split("\n"):
            use = USE.match(line)
            if use:
                for item in use.group(2).split(","):
                    name, _, other = item.strip().partition(" as ")
                    if other and dashed(other):
                        mine.add(other)
                    if not own(use.group(1), listed):
                        away.add(name)
                continue
            if path.endswith(".antt") and not line.lstrip().startswith("--"):
                for found in (DECLARED.match(line), RECORD.match(line)):
                    if found:
                        declared.add(spelled(found.group(1)))
                    if found and dashed(found.group(1)):
                        mine.add(found.group(1))
    return mine, foreign, declared


def turn(text, mine, away):
    return TOKEN.sub(lambda m: spelled(m.group()) if m.group() in mine and m.group() not in away else m.group(), text)


def quoted(text, declared):
    """Pages and comments: a name with a dash is turned where its new spelling is declared (port.py has turned some itself)."""

    def word(m):
        return spelled(m.group()) if dashed(m.group()) and spelled(m.group()) in declared else m.group()

    return re.sub(r"`[^`\n]*`", lambda m: TOKEN.sub(word, m.group()), text)


def turn_line(line, path, mine, declared, away):
    if path.endswith((".md", ".py")):
        return quoted(line, declared)
    if path.endswith(".edit"):
        return TOKEN.sub(lambda m: spelled(m.group()) if dashed(m.group()) and spelled(m.group()) in declared else m.group(), line)
    mark = "--" if path.endswith(".antt") else "//"
    at = re.search(r"(?:^|\s)" + mark, line)
    code, rest = (line[: at.start()], line[at.start() :]) if at else (line, "")
    return turn(code, mine, away) + quoted(rest, declared)


def main():
    listed = crates()
    mine, foreign, declared = names(listed)
    if "--list" in sys.argv:
        print("\n".join(sorted(mine)))
        return
    changed = 0
    for path in files((".antt", ".rt", ".edit", ".md", ".py")):
        text = read(path)
        away = foreign.get(path, ())
        new = "\n".join(turn_line(line, path, mine, declared, away) for line in text.split("\n"))
        if new != text:
            changed += 1
            with open(path, "w", encoding="utf-8") as f:
                f.write(new)
    print(f"turned: {len(mine)} names in {changed} files")


if __name__ == "__main__":
    main()
