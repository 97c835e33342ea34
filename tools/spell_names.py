#!/usr/bin/env python3
"""Brings the repository's own definitions and lemmas to snake case, once, after port.py.

usage: python3 tools/spell_names.py    at the top of the repository

The names are those that files of specs/ and proofs/ declare, their records' fields and their constructors among them.
A name that a library has too stays, and so does a name that begins with a type or an operator. Strings, prose and the
functions of src/ are not touched. A name that would fall together with another one stops the script.
"""

import os
import re
import sys

# This module's name would differ from a generated one only in case.
RENAMED_MODULE = ("Contracts", "ContractTerms")
NAME_PART = r"[\w'-]"
DECLARED = re.compile(r"^ *(?:(?:unfoldable|abbrev|opaque|pub)\s+)*([a-z][\w'-]*)(?:\s+[({].*?[)}])*\s+:\s")
MEMBER = re.compile(r"^ +(?:pub\s+)?([a-z][\w'-]*)\s+:\s")


def sources(endings):
    for folder, folders, files in os.walk("crates"):
        folders[:] = sorted(d for d in folders if d != "out")
        for name in sorted(files):
            if name.endswith(endings):
                yield os.path.join(folder, name)


def text_of(path):
    with open(path, encoding="utf-8") as file:
        return file.read()


def is_lemma_or_definition(path):
    parts = path.split(os.sep)
    return parts[2] == "specs" or (parts[2] == "proofs" and len(parts) == 4)


def imports(text):
    """Each import: its module, and the names that it brings in."""
    for module, names in re.findall(r"(?m)^\s*(?:ghost )?(?:pub )?use ([\w.'·-]+)\.\{([^}]*)\}", text):
        yield module, [n.split(" as ")[0].strip() for n in names.split(",")]


def declared_names(crates):
    found = {}
    own = tuple("Rattle." + c + "." for c in crates)
    of_libraries = set()
    for path in sources(".antt"):
        text = text_of(path)
        for module, names in imports(text):
            if not module.startswith(own):
                of_libraries.update(names)
        if not is_lemma_or_definition(path):
            continue
        in_members = False
        for line in text.splitlines():
            if line[:1].strip() and not line.startswith("--"):
                in_members = bool(re.match(r"^(pub )?(record|data)\s", line))
            match = (MEMBER if in_members else DECLARED).match(line)
            if match:
                found.setdefault(match.group(1), set()).add("member" if in_members else "definition")
    return {n: kinds for n, kinds in found.items() if n not in of_libraries}, of_libraries


def snake(name):
    words = re.sub(r"(?<=[a-z0-9])(?=[A-Z])", "_", name).replace("-", "_")
    return words.lower() if words.isascii() else words


def spellings(names, of_libraries):
    """Old name to new. What would fall together with a definition is told apart: a lemma by _lem, a field by _holds."""
    taken = set(names) | of_libraries
    renamed = {n: snake(n) for n in names if "-" not in n and snake(n) != n}
    taken |= set(renamed.values())
    # A name that port.py has turned may have become a definition's new spelling.
    turned = set(names) & set(renamed.values())
    for name in sorted({n for n in names if "-" in n} | turned):
        new = snake(name)
        if new in taken:
            new += "_holds" if "member" in names[name] else "_lem"
        renamed[name] = new
    news = list(renamed.values())
    again = sorted({n for n in news if news.count(n) > 1 or (n in names and n not in turned) or n in of_libraries})
    return renamed, again


def outside_strings(line, change):
    return "".join(part if i % 2 else change(part) for i, part in enumerate(re.split(r'("(?:[^"\\]|\\.)*")', line)))


def respelled(text, pattern, renamed, comment):
    """The text with its names respelled; in a comment only those between backticks."""
    def change(part):
        return pattern.sub(lambda m: renamed[m.group(0)], part)

    lines = []
    for line in text.split("\n"):
        at = line.find(comment)
        code, prose = (line, "") if at < 0 else (line[:at], line[at:])
        prose = re.sub(r"`[^`]*`", lambda m: change(m.group(0)), prose)
        lines.append(outside_strings(code, change) + prose)
    return "\n".join(lines)


def matcher(names):
    return re.compile(rf"(?<!{NAME_PART})(?:" + "|".join(sorted(map(re.escape, names), key=len, reverse=True) or ["(?!)"]) + rf")(?!{NAME_PART})")


def rename_module():
    old, new = RENAMED_MODULE
    if os.path.exists(f"crates/rules/specs/{old}.antt"):
        os.rename(f"crates/rules/specs/{old}.antt", f"crates/rules/specs/{new}.antt")
    for path in sources((".antt", ".rt")):
        text = text_of(path)
        changed = text.replace(f"Rattle.rules.specs.{old}.", f"Rattle.rules.specs.{new}.").replace(f"Rattle.rules.specs.{old} ", f"Rattle.rules.specs.{new} ")
        if path == "crates/rules/specs/Lib.antt":
            changed = re.sub(rf"(?m)^pub mod {old}$", f"pub mod {new}", changed)
        if changed != text:
            with open(path, "w", encoding="utf-8") as file:
                file.write(changed)


def main():
    crates = [c for c in os.listdir("crates") if os.path.isdir(f"crates/{c}/src")]
    rename_module()
    names, of_libraries = declared_names(crates)
    renamed, again = spellings(names, of_libraries)
    if again:
        print("spell_names: these names would fall together: " + " ".join(again))
        return 1
    of_antt = matcher(renamed)
    # A name in snake case may be a function's own in a .rt file.
    of_rt = matcher([n for n in renamed if n != snake(n)])
    for path in sources((".antt", ".rt")):
        if "--try" in sys.argv:
            continue
        text = text_of(path)
        is_antt = path.endswith(".antt")
        changed = respelled(text, of_antt if is_antt else of_rt, renamed, "--" if is_antt else "//")
        if changed != text:
            with open(path, "w", encoding="utf-8") as file:
                file.write(changed)
    print(f"spell_names: {len(renamed)} names respelled")
    return 0


if __name__ == "__main__":
    raise SystemExit(main())
