"""What the prover says of a crate with some of its lines changed: `rt check`, in a copy of the repository.

rt tries the must-fail edits too, but it keeps the first line alone of what the prover said of each.
"""
import concurrent.futures
import functools
import hashlib
import os
import pathlib
import queue
import re
import shutil
import subprocess
import tempfile

ROOT = pathlib.Path(__file__).resolve().parents[2]
PARTS = ("src", "specs", "proofs")
# What rt needs of what it proved before.
BUILT = ("out/rlib", "out/incremental")
# What rt ends a check with that it could read and did not prove.
NOT_PROVED = "logic=not-proved"


def dependencies():
    """Each crate of crates.txt with the crates that it names."""
    lines = (line.partition("#")[0].split() for line in (ROOT / "crates.txt").read_text(encoding="utf-8").splitlines())
    return {words[0].rstrip(":"): words[1:] for words in lines if words}


def below(crate, crates):
    """The crate and those that it stands on."""
    found = {crate}
    for name in crates.get(crate, ()):
        found |= below(name, crates)
    return found & set(crates)


def version():
    return subprocess.run(["rt", "version"], stdout=subprocess.PIPE, check=True).stdout


@functools.lru_cache(maxsize=None)
def sum_of_crate(name, is_own):
    """A sum of a crate's files; where the crate stands below, without the proofs of its functions, which no other crate cites."""
    told, folder = hashlib.sha256(name.encode()), ROOT / "crates" / name
    files = [path for part in PARTS for path in (folder / part).rglob("*") if path.is_file()]
    for file in sorted(path for path in files if is_own or path.parent == folder / "proofs" or folder / "proofs" not in path.parents):
        told.update(f"{file.relative_to(ROOT)}\n".encode() + file.read_bytes())
    return told.hexdigest()


def sum_of(crate, crates, edit, kit):
    """A sum of all that the prover reads when it tries the edit."""
    told = hashlib.sha256(kit + edit.read_bytes())
    for name in sorted(below(crate, crates)):
        told.update(sum_of_crate(name, name == crate).encode())
    return told.hexdigest()


def prove_all():
    """Proves every crate where it stands, so that each copy begins with what is proved, and says what failed."""
    done = subprocess.run(["rt", "all", "check", "--jobs", str(lanes())], cwd=ROOT, stdin=subprocess.DEVNULL, stdout=subprocess.PIPE, stderr=subprocess.STDOUT, check=False)
    return [line for line in done.stdout.decode(errors="replace").splitlines()[-200:] if re.match(r"\w+: (?!ok$)", line)] if done.returncode else []


class Copy:
    """A copy of the repository in which crates are changed."""

    def __init__(self, folder):
        self.folder = pathlib.Path(folder)
        shutil.copy(ROOT / "crates.txt", self.folder)
        for crate in sorted(path.parent for path in ROOT.glob("crates/*/src")):
            for part in (*PARTS, *BUILT):
                if (crate / part).exists():
                    copy_file = shutil.copy2 if part in PARTS else link_or_copy
                    shutil.copytree(crate / part, self.folder / crate.relative_to(ROOT) / part, copy_function=copy_file)

    def check(self, crate, changes, renames=()):
        """What rt says of the crate with these changes, each a file, the text that stands there once and the new one, and its status.
        A rename is of a pattern in all files of a folder, or there in the answer to one goal alone."""
        folder, before = self.folder / "crates" / crate, {}
        try:
            for inside, goal, pattern, new in renames:
                for path in sorted((folder / inside).glob("*.antt")):
                    text = path.read_text(encoding="utf-8")
                    before.setdefault(path, text)
                    # An answer goes on up to the next one.
                    answers = re.split(r"(?m)^(?=(?:abbrev )?pub )", text)
                    renamed = [re.sub(pattern, new, answer) if goal is None or answer.startswith(f"pub {goal} :") else answer for answer in answers]
                    path.write_text("".join(renamed), encoding="utf-8")
            for file, old, new in changes:
                path = folder / file
                text = path.read_text(encoding="utf-8")
                before.setdefault(path, text)
                if text.count(old) != 1:
                    return f"'{old}' stands {text.count(old)} times in {file}", None
                path.write_text(text.replace(old, new), encoding="utf-8")
            done = subprocess.run(["rt", "check"], cwd=folder, stdin=subprocess.DEVNULL, stdout=subprocess.PIPE, stderr=subprocess.STDOUT, check=False)
            return done.stdout.decode(errors="replace"), done.returncode
        finally:
            for path, text in before.items():
                path.write_text(text, encoding="utf-8")


def link_or_copy(one, other):
    # rt puts a new file in the place of such a file, and changes none.
    try:
        os.link(one, other)
    except OSError:
        shutil.copy2(one, other)


def lanes():
    if "EDIT_LANES" in os.environ:
        return int(os.environ["EDIT_LANES"])
    return min(4, os.cpu_count() or 1)


def in_copies(work, tasks):
    """What work answers of a copy and of each task, several at once, each in a copy of its own."""
    count = max(1, min(lanes(), len(tasks)))
    with tempfile.TemporaryDirectory(prefix="edits-") as room, concurrent.futures.ThreadPoolExecutor(count) as pool:
        copies = queue.Queue()
        for number in range(count if tasks else 0):
            folder = pathlib.Path(room) / str(number)
            folder.mkdir()
            copies.put(Copy(folder))

        def in_one(task):
            copy = copies.get()
            try:
                return work(copy, task)
            finally:
                copies.put(copy)

        return list(pool.map(in_one, tasks))
