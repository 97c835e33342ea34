#!/usr/bin/env python3
"""Prints what changed since a commit, old and new: signatures and clauses of public functions, constants, definitions of specs/.

usage: tools/design_changes.py COMMIT [KIT]

It reads what /opt/rattle/port/contracts.py finds. docs/DESIGN-PASS.md ends with what this prints.
"""

import json
import re
import subprocess
import sys
import tempfile


def tree(commit):
    folder = tempfile.mkdtemp()
    archive = subprocess.run(["git", "archive", commit, "crates"], capture_output=True, check=True).stdout
    subprocess.run(["tar", "x", "-C", folder], input=archive, check=True)
    return folder


def is_public(folder, name):
    crate, path, *_, function = name.split(" ")
    try:
        text = open(f"{folder}/crates/{crate}/{path}").read()
    except FileNotFoundError:
        return False
    return re.search(rf'pub (extern "C" )?fn {function}\b', text) is not None


def clauses(requires, ensures):
    each = [("requires", clause) for clause in requires] + [("ensures", clause) for clause in ensures]
    return [" ".join(f"{kind} {name} {{ {text} }}".split()) for kind, (name, text) in each]


def block(title, old, new):
    print(f"{title}\n```")
    for sign, lines in (("-", old), ("+", new)):
        for line in lines:
            print(f"{sign} {line}")
    print("```")


def main():
    commit = sys.argv[1]
    kit = sys.argv[2] if len(sys.argv) > 2 else "/opt/rattle"
    old, new = tree(commit), tree("HEAD")
    script = [sys.executable, f"{kit}/port/contracts.py", old, new, "--json"]
    found = json.loads(subprocess.run(script, capture_output=True, text=True, check=True).stdout)

    print("### Public functions: signatures\n")
    for name, before, after in found["signatures changed"]:
        if is_public(new, name):
            block(name, [before], [after])
    print("\n### Public functions: clauses\n")
    for name, requires_before, ensures_before, requires, ensures in found["contracts changed"]:
        if is_public(new, name):
            before, after = clauses(requires_before, ensures_before), clauses(requires, ensures)
            block(name, [c for c in before if c not in after], [c for c in after if c not in before])
    print("\n### Functions that are gone\n")
    for name in found["functions not found again"]:
        print(f"- {name}")
    print("\n### Constants and definitions that are gone\n")
    for words in found["ghost items and constants"]["gone"] + found["definitions"]["gone"]:
        print(f"- {' '.join(words)}")
    print("\n### Definitions, statements and constants: old and new\n")
    for *words, before, after in found["ghost items and constants"]["changed"] + found["definitions"]["changed"]:
        block(" ".join(words), before, after)


if __name__ == "__main__":
    main()
