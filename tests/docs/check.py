#!/usr/bin/env python3
"""Whether the pages cite what exists, and whether they have their form. What is wrong is printed, and the exit status is 1.

Citations, on README.md, docs/ and examples/:
- A link must lead to a file. A link is `[Days](../crates/rules/specs/Days.antt)`, or `[Days]` where the page ends with
  `[Days]: ../crates/rules/specs/Days.antt`. A label without such a line is wrong, and so is a line whose label no text has.
  A label leads to the same file on every page.
- A name in backticks that follows a link and a colon must be defined in that file: `[Days]: \\`year_start\\`, \\`sunday\\``.
  Any other name in backticks must be a crate, a path, a command, or be defined somewhere.
- A name in quotes that follows a link to cases.txt and a colon must begin a case there: `[cases.txt]: 'own order met'`.
- A decision that is cited by its number, as in `[DECISIONS.md](DECISIONS.md), 26`, must be there.

Form, of docs/ and examples/:
- No line is longer than 120 characters. A line that only says where a label leads may be.
- DECISIONS.md has the decisions 1, 2, 3 and so on, none missing, each with a reason and a place, each under one topic.
- READING.md has a section for each refusal number of the rules, in rising order, each with the lines that it needs.
"""
import collections
import os
import pathlib
import re
import sys

ROOT = pathlib.Path(__file__).resolve().parents[2]
# docs/PORT.md and docs/DESIGN-PASS.md tell what was renamed, by the names that were.
DOCS = sorted(path for path in (ROOT / "docs").rglob("*.md") if path.name not in ("PORT.md", "DESIGN-PASS.md"))
STORIES = sorted((ROOT / "examples").glob("*.md"))
PAGES = [ROOT / "README.md", *DOCS, *STORIES]
DECISIONS = ROOT / "docs" / "DECISIONS.md"
READING = ROOT / "docs" / "READING.md"
ANSWERS = ROOT / "crates" / "rules" / "specs" / "Answers.antt"
PLACES = ("crates", "include", "programs", "tests", ".ci", "examples")
COMMANDS = ("rt", "gcc", "rustc", "tar", "make", "durskafn")
MOST_COLUMNS = 120
REFUSAL_LINES = ("answer", "definition", "theorem", "code", "example")

LINK = re.compile(r"\[[^\]]*\]\(([^)\s]+)\)")
REFERENCE = re.compile(r"^\[([^\]]+)\]: ([^\s`]+)$", re.M)
LABEL = re.compile(r"(`[^`]*`)|\[([^\]]+)\](?!\()")
CODE = re.compile(r"`([^`]+)`")
# A quoted name; an apostrophe within it has a letter behind it.
QUOTED = re.compile(r"'(.+?)'(?!\w)")
CASE = re.compile(r"^case (.*)$", re.M)
NAME = re.compile(r"[^\W\d][\w'·-]*$")
# Lines that are shown as they are.
BLOCK = re.compile(r"^(```|    ).*$", re.M)
# Words in parentheses say more of what stands before them.
ASIDE = re.compile(r"\([^()]*\)")

DECISION = re.compile(r"^## (\d+)\. .*$", re.M)
TOPIC = re.compile(r"^- [^:\n]+: (\d+(?:, \d+)*)$", re.M)
CITED_DECISION = re.compile(r"\[DECISIONS\.md\]\([^)]*\), (\d+)")
REFUSAL = re.compile(r"^### Refusal (\d+): .*$", re.M)
TOLD_NUMBER = re.compile(r"\bnumber = (\d+)")

# How a name is defined: a signature, field or case of a specification; an item, field or variant of a program.
# A signature has its type behind a colon; what a keyword names needs none.
SIGNATURE = re.compile(r"^\s*(?:(?:pub|abbrev|unfoldable)\s+)*(?:(?:data|record|mod|ruleset)\s+([^\s:(){}=,]+)|([^\s:(){}=,]+) :)", re.M)
ITEM = re.compile(r"\b(?:fn|struct|enum|trait|const|mod|type)\s+(\w+)")
# A variant has a capital letter; a field has its type behind it. A call is neither.
FIELD = re.compile(r"^\s*(?:pub\s+)?([A-Z]\w*(?=\s*[,({=])|[a-z]\w*(?=:\s))", re.M)
# A function of C begins its line with its type; of Python, with def.
FUNCTION = re.compile(r"^[a-z][\w *]*\b(\w+)\(", re.M)
DEF = re.compile(r"^\s*def (\w+)", re.M)
WORD = re.compile(r"\w+")
# A slip of a must-fail edit.
SLIP = re.compile(r"^# slip: (\S+)$", re.M)
DEFINES = {".edit": (SLIP,), ".antt": (SIGNATURE,), ".rt": (ITEM, FIELD), ".rs": (ITEM,), ".c": (FUNCTION,), ".py": (DEF,)}


def text_of(path):
    return path.read_text(encoding="utf-8", errors="replace")


def defined(path):
    """The names that a file defines; of a file in another language, its words."""
    found = (match for pattern in DEFINES.get(path.suffix, (WORD,)) for match in pattern.finditer(text_of(path)))
    return {match[match.lastindex or 0] for match in found}


def below(place):
    """The files and folders below a place, but for what rt makes in out/, which comes and goes."""
    for folder, folders, files in os.walk(place):
        folders[:] = sorted(name for name in folders if name != "out")
        yield from (pathlib.Path(folder) / name for name in (*folders, *files))


def known_names():
    """What is defined anywhere, what the specifications use of the kit, and the names of files and folders."""
    names = set()
    for path in (path for place in PLACES for path in below(ROOT / place)):
        names.add(path.name)
        if path.suffix in {".antt", ".rt", ".h"}:
            names |= defined(path)
        if path.suffix == ".antt":
            for used in re.findall(r"^use .*\.\{(.*)\}", text_of(path), re.M):
                names |= {name.strip() for name in used.split(",")}
    return names


def with_links(text):
    """The text with each label as a link of its own, the lines of references empty; and what is wrong with those."""
    references = dict(REFERENCE.findall(text))
    used, wrong = set(), []

    def link(found):
        label = found.group(2)
        if not label:
            return found.group(0)
        if label not in references:
            wrong.append(f"no reference for [{label}]")
            return found.group(0)
        used.add(label)
        return f"[{label}]({references[label]})"

    linked = LABEL.sub(link, REFERENCE.sub("", text))
    wrong += [f"no text has [{label}]" for label in references if label not in used]
    return linked, wrong


def items(text):
    """Paragraphs, list items, rows and headings, each as one line, with the number of its first line."""
    first, held = 0, ""
    for number, line in enumerate(text.splitlines(), 1):
        if not line.strip() or line.startswith(("#", "|", "- ")):
            yield first, held
            held = ""
        if line.strip():
            first, held = (first, f"{held} {line.strip()}") if held else (number, line)
    yield first, held


def segments(line):
    """The line cut at its links: (path that the names before the next link belong to, or None; text)."""
    target, start = None, 0
    for link in LINK.finditer(line):
        yield target, line[start : link.start()]
        target, start = link.group(1), link.end()
    yield target, line[start:]


def is_path(text, page):
    return any((base / text).exists() for base in (ROOT, page.parent))


def own_words(words):
    """What belongs to the file before it: after a colon, up to a semicolon, a full stop or the end of the cell."""
    return re.split(r"[;|.]", ASIDE.sub("", words), maxsplit=1)[0] if words.startswith(":") else ""


def missing_cases(path, words):
    """The quoted names that no case of the file begins with."""
    cases = CASE.findall(text_of(path))
    return [name for name in QUOTED.findall(words) if not any(case.startswith(name) for case in cases)]


def missing_names(page, known, target, words):
    """What a text and the link before it cite and is not there."""
    path = None
    if target and "://" not in target:
        path = (page.parent / target.split("#")[0]).resolve()
        if not path.exists():
            yield f"no file {target}"
            path = None
    own = own_words(words) if path and path.is_file() else ""
    if own and path.name == "cases.txt":
        yield from (f"no case '{name}' in {target}" for name in missing_cases(path, own))
    mine = CODE.findall(own)
    yield from (f"no {name} in {target}" for name in mine if name not in defined(path))
    for name in CODE.findall(words):
        word = name.split()[0]
        if name in mine or name in known or word in COMMANDS or is_path(word, page) or word.startswith("target/"):
            continue
        if NAME.match(name) or "/" in name or "." in name:
            yield f"no {name}"


def citations(page, known, decisions):
    """What the page cites and is not there."""
    text, wrong = with_links(BLOCK.sub("", text_of(page)))
    yield from ((0, what) for what in wrong)
    for number, line in items(text):
        for target, words in segments(line):
            yield from ((number, what) for what in missing_names(page, known, target, words))
        for decision in CITED_DECISION.findall(line):
            if int(decision) not in decisions:
                yield number, f"no decision {decision}"


def other_labels():
    """The labels that lead to one file on one page and to another on another page."""
    leads = {}
    for page in PAGES:
        for label, target in REFERENCE.findall(text_of(page)):
            path = (page.parent / target).resolve()
            if leads.setdefault(label, path) != path:
                yield page, 0, f"[{label}] leads elsewhere on another page"


def long_lines(page):
    for number, line in enumerate(text_of(page).splitlines(), 1):
        if len(line) > MOST_COLUMNS and not REFERENCE.match(line):
            yield number, f"{len(line)} characters, more than {MOST_COLUMNS}"


def sections(text, heading):
    """Each section under such a heading: its number, its line and its text."""
    found = list(heading.finditer(text))
    for here, following in zip(found, [*found[1:], None]):
        # A wider section ends it too; a narrower one is part of it.
        level = here.group(0).index(" ")
        body = re.split(rf"^#{{1,{level}}} ", text[here.end() : following.start() if following else None], maxsplit=1, flags=re.M)[0]
        yield int(here.group(1)), text.count("\n", 0, here.start()) + 1, body


def out_of_order(numbers, expected, what):
    """What is missing, and what does not follow the one before it."""
    yield from ((0, f"{what} {number} is missing") for number in sorted(set(expected) - {number for number, _ in numbers}))
    for (before, _), (number, line) in zip([(0, 0), *numbers], numbers):
        if number <= before:
            yield line, f"{what} {number} stands after {before}"
        elif number not in expected:
            yield line, f"{what} {number} is not one of the rules"


def decision_faults():
    text = text_of(DECISIONS)
    found = [(number, line, REFERENCE.sub("", body)) for number, line, body in sections(text, DECISION)]
    last = max((number for number, _, _ in found), default=0)
    yield from out_of_order([(number, line) for number, line, _ in found], range(1, last + 1), "decision")
    topics = collections.Counter(int(n) for numbers in TOPIC.findall(DECISION.split(text)[0]) for n in numbers.split(", "))
    for number, line, body in found:
        if "\n- why: " not in body:
            yield line, f"decision {number} has no reason"
        if not re.search(r"\[[^\]]+\]", body):
            yield line, f"decision {number} has no place"
        if topics[number] != 1:
            yield line, f"decision {number} is under {topics[number]} topics"
    yield from ((0, f"a topic has decision {number}, which is missing") for number in topics if not 0 < number <= last)


def refusal_faults():
    found = list(sections(text_of(READING), REFUSAL))
    numbers = {int(number) for number in TOLD_NUMBER.findall(text_of(ANSWERS))} - {0}
    if not numbers:
        yield 0, f"no refusal numbers in {ANSWERS.relative_to(ROOT)}"
    yield from out_of_order([(number, line) for number, line, _ in found], numbers, "refusal")
    for number, line, body in found:
        yield from ((line, f"refusal {number} has no {what}") for what in REFUSAL_LINES if f"\n- {what}: " not in body)


def faults():
    known = known_names()
    decisions = {int(number) for number in DECISION.findall(text_of(DECISIONS))}
    for page in PAGES:
        yield from ((page, *fault) for fault in citations(page, known, decisions))
    yield from other_labels()
    for page in [*DOCS, *STORIES]:
        yield from ((page, *fault) for fault in long_lines(page))
    yield from ((DECISIONS, *fault) for fault in decision_faults())
    yield from ((READING, *fault) for fault in refusal_faults())


def main():
    found = list(faults())
    for page, number, what in found:
        print(f"{page.relative_to(ROOT)}:{number}: {what}")
    print(f"{len(PAGES)} pages, {len(found)} faults")
    return 1 if found else 0


if __name__ == "__main__":
    sys.exit(main())
