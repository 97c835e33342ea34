#!/usr/bin/env python3
"""Brings the names on the pages to today's spelling, once, after port.py and spell_names.py.

usage: python3 tools/turn_pages.py    at the top of the repository

Turned are names between backticks, in README.md, docs/ and examples/, as turn_edits.py learnt them, and the paths of files
that have another name today. An item of which a line grew past the columns that a page may have is laid out again, and so is a
table whose columns stood below one another. Prose stays.
"""
import pathlib
import re
import sys

import turn_edits

ROOT = turn_edits.ROOT
MOST_COLUMNS = 120
CODE = re.compile(r"`[^`\n]+`")
NAME = re.compile(r"[\w'′][\w'′-]*")
REFERENCE = re.compile(r"^\[([^\]]+)\]: (\S+)$")
BEGINS_ITEM = re.compile(r"#|\||```| *(?:-|\d+\.) ")
# A page's labels that are a file's name follow the file.
RENAMED_LABEL = ("[Contracts]", "[ContractTerms]")
PAGES = [ROOT / "README.md", *sorted((ROOT / "docs").glob("*.md")), *sorted((ROOT / "examples").glob("*.md"))]
# This page says what the port turned.
NOT_TURNED = {"PORT.md"}


def todays_path(page, target):
    path = target.replace("rules/specs/Contracts.antt", "rules/specs/ContractTerms.antt")
    if not (page.parent / path).exists() and path.endswith("/Proof.antt"):
        path = path.removesuffix("Proof.antt") + "Answers.antt"
    return path


def turned_line(page, line, words):
    reference = REFERENCE.match(line)
    if reference:
        target = todays_path(page, reference[2])
        line = f"[{reference[1]}]: {target}"
    return CODE.sub(lambda m: NAME.sub(lambda n: words.get(n[0], n[0]) if turn_edits.is_old(n[0]) else n[0], m[0]), line.replace(*RENAMED_LABEL))


def laid_out(lines, before):
    """The lines of one item within the columns, each later line as far in as the second one was. It had the lines before."""
    grew = any(len(line) > MOST_COLUMNS and len(line) > len(was) for line, was in zip(lines, before))
    if not grew or lines[0].startswith(("#", "    ", "```")) or REFERENCE.match(lines[0]):
        return lines
    begin = re.match(r" *", lines[0])[0]
    indent = re.match(r" *", lines[1])[0] if len(lines) > 1 else begin + "  " * bool(re.match(r" *(?:-|\d+\.) ", lines[0]))
    done, here = [], begin
    # A name between backticks and a link's text are not cut.
    for word in re.findall(r"(?:`[^`]*`|\[[^\]]*\]|\S)+", " ".join(line.strip() for line in lines)):
        if here.strip() and len(here) + 1 + len(word) > MOST_COLUMNS:
            done.append(here)
            here = indent + word
        else:
            here = f"{here} {word}" if here.strip() else here + word
    return [*done, here]


def table(lines, before):
    """The table with its columns below one another, if they were."""
    if len({len(line) for line in before}) != 1 or len(lines) < 3:
        return lines
    rows = [[cell.strip() for cell in line.strip("|").split("|")] for line in lines]
    widths = [max(len(row[i]) for row in rows if set(row[i]) != {"-"}) for i in range(len(rows[0]))]
    fill = lambda cell, width: "-" * (width + 2) if set(cell) == {"-"} else f" {cell.ljust(width)} "
    return ["|" + "|".join(map(fill, row, widths)) + "|" for row in rows]


def turn_page(page, words):
    done, item, was, in_block = [], [], [], False

    def end_item():
        if item:
            done.extend(table(item, was) if item[0].startswith("|") else laid_out(item, was))
        item.clear()
        was.clear()

    for old in page.read_text(encoding="utf-8").split("\n"):
        line = turned_line(page, old, words)
        is_fence = line.startswith("```")
        in_block ^= is_fence
        in_table = bool(item) and item[0].startswith("|") and line.startswith("|")
        if not in_table and (not line.strip() or BEGINS_ITEM.match(line) or REFERENCE.match(line) or in_block or is_fence):
            end_item()
        if not line.strip() or in_block or is_fence:
            done.append(line)
        else:
            item.append(line)
            was.append(old)
    end_item()
    page.write_text("\n".join(done), encoding="utf-8")


def main():
    words = turn_edits.learnt()
    for page in PAGES:
        if page.name not in NOT_TURNED:
            turn_page(page, words)
    return 0


if __name__ == "__main__":
    sys.exit(main())
