#!/usr/bin/env python3
"""Brings the must-fail edits and their controls to today's text, once, after port.py and spell_names.py.

usage: python3 tools/turn_edits.py [CRATE ...]    at the top of the repository; all crates where none is named

What each word became is learnt from the files of the commit LANDED and those that stand here, laid beside one another. An
`old:` text that stands once in today's file stays, with its `new:` text. Any other pair is turned word by word. A pair whose
`old:` text then doesn't stand once is one of BY_HAND, or is printed, for a mend by hand. The lines `slip:`, `refused:` and `control:` become
comments, since rt reads none of them. A file that was turned stays as it is.
"""
import collections
import difflib
import pathlib
import re
import subprocess
import sys

LANDED = "380425b"
ROOT = pathlib.Path(__file__).resolve().parents[1]
RENAMED = {"specs/Contracts.antt": "specs/ContractTerms.antt"}
# Where names of the older library's modules stand today.
MODULES = {"Prim.Native.Nat.": "Rattle.std.specs.Prelude.", "lib.IntN.": "Rattle.std.specs.Prelude.", "mathlib.Core.List.": "Rattle.std.specs.Prelude."}
# Crate and older `old:` text; the pair that stands for it, none where the line is not needed.
BY_HAND = {
    ("close_out_weights", "use rules::layout::DAY;"): ("    DAY, DEFAULT_MARK, FIRST_YEAR,", "    TIME, DEFAULT_MARK, FIRST_YEAR,"),
    ("proposal_check", "use rules::layout::ORDER_NUMBER;"): ("use rules::layout::{ORDER_NUMBER, ORDER_WIDTH};", "use rules::layout::{ORDER_MEMBER, ORDER_WIDTH};"),
    ("deal_lines", "run + line.lots.0"): ("head[LOTS_RUN] = run + line.lots.0;", "head[LOTS_RUN] = run + line.price.0;"),
    ("months", "    60,"): ("    0, 31, 60, 91, 121,", "    0, 31, 59, 91, 121,"),
    # The function is named by its whole path in the line that uses it.
    ("rules", "use mathlib.Core.List.{List, [], _∷_, map}"): None,
}
OWN_WORDS = ("slip: ", "refused: ", "control: ")
# A name with its path, an operator's name, or a sign.
WORD = re.compile(r"[\w'′](?:[\w'′·-]|\.(?=[^\W\d]))*|\S")
OPERATOR = re.compile(r"(?<![^\W_])_([^\s_{}(),]+)_(?!\w)")
QUALIFIED = re.compile(r"\b((?:Rattle·|Prim\.|lib\.|mathlib\.)[\w.·]*\.)((?:◌[^\s◌]+◌)|[\w'-]+)")
PROJECTION = re.compile(r"\((\w+(?: \.\w+)+)\)")


def landed(path):
    done = subprocess.run(["git", "show", f"{LANDED}:{path}"], cwd=ROOT, capture_output=True, check=False)
    return done.stdout.decode() if done.returncode == 0 else None


def bare(word):
    return re.sub(r"[_◌-]", "", word).lower()


def pairs_of_words(old, new):
    """The words that stand in the same place of both texts."""
    olds, news = WORD.findall(old), WORD.findall(new)
    matcher = difflib.SequenceMatcher(None, [bare(w) for w in olds], [bare(w) for w in news], autojunk=False)
    for kind, a, b, c, d in matcher.get_opcodes():
        if b - a == d - c:
            yield from zip(olds[a:b], news[c:d])


def learnt():
    """What each word of LANDED became, in most of its places."""
    votes = collections.defaultdict(collections.Counter)
    listed = subprocess.run(["git", "ls-tree", "-r", "--name-only", LANDED, "crates"], cwd=ROOT, capture_output=True, check=True)
    for path in listed.stdout.decode().splitlines():
        crate, inside = path.split("/", 2)[1:]
        today = ROOT / "crates" / crate / RENAMED.get(inside, inside)
        if path.endswith((".antt", ".rt")) and inside.split("/")[0] in ("src", "specs", "proofs") and today.exists() and not path.endswith("/Proof.antt"):
            lines = landed(path).splitlines(), today.read_text(encoding="utf-8").splitlines()
            keys = [[bare(re.sub(r"[\s().]", "", line)) for line in side] for side in lines]
            matcher = difflib.SequenceMatcher(None, *keys, autojunk=False)
            for kind, a, b, c, d in matcher.get_opcodes():
                if b - a == d - c:
                    for old, new in zip(lines[0][a:b], lines[1][c:d]):
                        for one, other in pairs_of_words(old, new):
                            votes[one][other] += 1
    return {word: found.most_common(1)[0][0] for word, found in votes.items()}


def is_old(word):
    """Whether a word of prose is a name in the older spelling."""
    return bool(re.search(r"[a-z0-9][A-Z]|\w-\w", word)) and word[0].islower()


def in_module(found, words):
    """A name with its module's path. The names are turned later, as all are."""
    module, name = found[1], found[2]
    return MODULES.get(module, words.get(module[:-1], module[:-1]) + ".") + words.get(name, name)


def turned(text, words):
    """A code text in today's spelling: its words, and its projections, which are written tight."""
    text = WORD.sub(lambda m: words.get(m[0], m[0]), QUALIFIED.sub(lambda m: in_module(m, words), OPERATOR.sub(r"◌\1◌", text)))
    text = text.replace(" foldr ", " mathlib.Core.List.foldr ").replace("(foldr ", "(mathlib.Core.List.foldr ")
    text = PROJECTION.sub(lambda m: m[1].replace(" .", "."), text)
    return re.sub(r"(?<=[\w)]) \.(?=[\w])", ".", text)


def turned_comment(text, words):
    # A full stop may end the sentence.
    return re.sub(r"[\w'][\w'-]*", lambda m: words.get(m[0], m[0]) if is_old(m[0]) else m[0], text)


def turn_file(path, crate, words, complain):
    done, file, old, texts, pending = [], "", None, {}, []
    for line in path.read_text(encoding="utf-8").splitlines():
        if line.startswith(OWN_WORDS[0]) or line.startswith(OWN_WORDS[2]):
            line = "# " + line
        elif line.startswith("refused: "):
            line = "# refused: " + " ".join(words.get(n, n) if is_old(n) else n for n in line.split()[1:])
        elif line.startswith("#"):
            if not line.startswith(tuple("# " + w for w in OWN_WORDS)):
                line = turned_comment(line, words)
        elif line.startswith("file: "):
            file = RENAMED.get(line[6:].strip(), line[6:].strip())
            line = "file: " + file
        elif line.startswith("old: "):
            old = line[5:]
            continue
        elif line.startswith("new:"):
            new = line[4:].removeprefix(" ")
            text = texts.setdefault(file, (ROOT / "crates" / crate / file).read_text(encoding="utf-8"))
            if (crate, old) in BY_HAND:
                if not BY_HAND[crate, old]:
                    continue
                old, new = BY_HAND[crate, old]
            elif text.count(old) != 1:
                old, new = turned(old, words), turned(new, words)
            elif file.startswith("specs/"):
                new = turned(new, words)
                if text.count(old) != 1:
                    complain(f"{path.relative_to(ROOT)}: {file}: {text.count(old)} times: {old}")
            if text.count(old) == 1:
                texts[file] = text.replace(old, new)
            done.append("old: " + old)
            line = "new: " + new
        done.append(line)
    path.write_text("\n".join(done) + "\n", encoding="utf-8")


def main():
    only, words, left = sys.argv[1:], learnt(), []
    edits = [(p, p.parent.parent.name) for p in sorted(ROOT.glob("crates/*/must-fail/*.edit"))]
    controls = [(p, p.stem) for p in sorted(ROOT.glob("tests/edits/controls/*.control"))]
    for path, crate in edits + controls:
        if not only or crate in only:
            turn_file(path, crate, words, left.append)
    print("\n".join([*left, f"{len(left)} pairs left by hand"]))
    return 1 if left else 0


if __name__ == "__main__":
    sys.exit(main())
