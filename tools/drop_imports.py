#!/usr/bin/env python3
"""drop_imports.py CRATE..: drops from a crate's proof files the names of `use` lines that stand nowhere else in the file."""
import os, re, sys

def used(name, code):
    # an operator is used by its parts, as `◌+◌` by `+`
    if "◌" in name:
        return all(p in code for p in name.split("◌") if p)
    return re.search(r"(?<![\w'-])" + re.escape(name) + r"(?![\w'-])", code) is not None if re.match(r"\w", name) else name in code


def dropped(text):
    lines, uses = [], []
    for line in text.split("\n"):
        m = re.match(r"^use ([\w.'+-]+)\.\{([^}]*)\}$", line)
        (uses if m else lines).append(line)
    body = "\n".join(l for l in lines if not l.startswith("use "))
    code = re.sub(r"--[^\n]*", "", body)
    out = []
    for line in text.split("\n"):
        m = re.match(r"^use ([\w.'+-]+)\.\{([^}]*)\}$", line)
        if m:
            names = [n.strip() for n in m.group(2).split(",")]
            kept = [n for n in names if used(n.split(" as ")[-1].strip(), code)]
            if not kept:
                continue
            line = f"use {m.group(1)}.{{{', '.join(kept)}}}"
        out.append(line)
    return "\n".join(out).lstrip("\n")


for crate in sys.argv[1:]:
    for folder, folders, files in os.walk(f"crates/{crate}/proofs"):
        for f in files:
            if f.endswith(".antt") and f != "Lib.antt":
                p = os.path.join(folder, f)
                t = open(p, encoding="utf-8").read()
                n = dropped(t)
                if n != t:
                    open(p, "w", encoding="utf-8").write(n)
