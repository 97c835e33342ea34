#!/usr/bin/env python3
"""check.py [--forms] [CRATE ...]: asks the prover what it says of each must-fail edit, of all crates where none is named.

An edit may hold several slips, so that its crate is proved once for all of them. `rt` asks only that the crate is refused.
Here every slip must be refused by itself. Each name on its line `# refused:` is one of these:
- a function of which a fact does not hold (not only a function that calls one which is refused);
- a law or an example that does not hold.
No other function may be refused by itself, and none because its proof names a goal that the edited code lacks: then the
text changed and not a fact. Rattle names the goals of a branch by its condition (`then-n-eq0`), the goal of an index by the
index, and what is known after a call by the callee. So where a slip changes one of these, the names in the function's proof
follow it, and the edit is tried again.
A slip of code has the shape of what it stands for: values and comparisons differ, and nothing else. A slip of another
shape has a control, a change of the same shape that is no slip, in controls/CRATE.control; controls.py asks whether it is
proved. Every function that another crate or a host calls is named by a slip of its crate.
With --forms, which the gate does not ask, no proof may be refused for its form at all: for a path to a step that is not
there, or for a step that takes another number of things.
What the prover said of an edit is kept in target/must-fail/CRATE/EDIT.log, and read again where nothing changed since.
"""
import pathlib
import re
import sys

import prover

# rt reads no line that begins with a number sign.
OWN_LINES = ("# slip: ", "# refused: ", "# control: ")
EDIT_LINES = ("file: ", "old: ", "new:")
ROOT = prover.ROOT
CONTROLS = pathlib.Path(__file__).resolve().parent / "controls"
# What stands for a value: a literal, or a name with its path and its fields. A number may have a sign.
VALUE = re.compile(r"""b?'[^']*'|\*?b?"[^"]*"|(?<![\w)\]] )-\d+|\w+(?:(?:::|\.)\w+)*""")
COMPARISON = re.compile(r"<=|>=|==|!=|<|>")
# A refusal of a text in antt: the file, and the words.
ERROR = re.compile(r"^(?:\./)?((?:specs|proofs)/\S+)\.antt:\d+:\d+: error: (.*)", re.M)
# The files of a function's own proof, in a folder of its name.
OF_A_FUNCTION = ("Answers", "Invariants", "Proof")
# The prover's verdict on a function. It may be that a callee is not proved, and then the search is not tried at its own goals.
VERDICT = re.compile(r"^fn \w+?::(\S+): (.*)$", re.M)
WAITS_FOR_CALLEE = re.compile(r"\bit calls .*not proved$")
# What is said of whatever rests on something that was refused.
RESTS_ON_REFUSED = re.compile(r"which was (?:rejected|not admitted), w(?:as|ere) not checked|was not admitted \(")
# What is said of a proof that names a goal that is not there, with the goals that there are.
LOST_FIELD = re.compile(r"has no field `([^`]*)`(?: \(nearest: \.([\w-]+))?")
LOST_GOAL = re.compile(r"has no `([^`]*)` that can be named from here|is not in scope")
ASKED = re.compile(r"^help: `Goals` has no `([^`]*)`; rattle asks for (.*?);", re.M)
# A goal's name, up to its condition or its index, this, and what of the clause.
INDEX = re.compile(r"(.*-)(\w+)()$")
CONDITION = re.compile(r"(.*-(?:then|else|in)-)(.+?)((?:-clause-\w+|-raw)*)$")
ANSWERED = re.compile(r"^pub ([^\s:]+) :", re.M)
FOLLOWS = "---- the names of the goals follow the code"
# What is said where a text names what is not there.
LOST = re.compile(r"is not in scope|has no field|is no name|has no `|operand is missing|expected the end|cannot continue")
# What is said of a proof, with the lines that it goes on over, and what is said of its form.
OF_A_PROOF = re.compile(r"^(?:\./)?proofs/(\S+)/(?:Answers|Invariants|Proof)\.antt:\d+:\d+: error: (.*(?:\n  .*)*)", re.M)
OF_FORM = re.compile(r"has no field `|this pattern needs a function|this λ has \d+ binders")


class Slip:
    def __init__(self, name):
        self.name = name
        self.refused = []
        # each as file, old and new text
        self.changes = []


def slips_of(edit, complain, word="# slip: "):
    slips = []
    file = old = ""
    for number, line in enumerate(edit.read_text(encoding="utf-8").splitlines(), 1):
        if line.startswith(word):
            slips.append(Slip(line[len(word) :]))
        elif not line or line.startswith("#") and not line.startswith(OWN_LINES):
            continue
        elif not line.startswith(EDIT_LINES) and not line.startswith("# refused: "):
            complain(f"line {number} is no line of an edit: {line}")
        elif not slips:
            complain(f"line {number} stands before the first '{word.strip()}'")
        elif line.startswith("# refused: "):
            slips[-1].refused += line[len("# refused: ") :].split()
        elif line.startswith("file: "):
            file = line[len("file: ") :]
        elif line.startswith("old: "):
            old = line[len("old: ") :]
        elif line.startswith("new:"):
            slips[-1].changes.append((file, old, line[len("new:") :].removeprefix(" ")))
    return slips


def shape(code):
    """The code with one sign for every value, one for every comparison, and one for `&` and `|`."""
    with_values = VALUE.sub("x", code).replace("=>", ":")
    return "".join(COMPARISON.sub("<", with_values).replace("|", "&").split())


def shapes(slip):
    """Where the slip stands, and the shape of what it puts there."""
    return [(file, old, shape(new)) for file, old, new in slip.changes]


def controls_of(crate, complain):
    path = CONTROLS / f"{crate}.control"
    return slips_of(path, complain, "# control: ") if path.exists() else []


def check_shapes(crate, slips, complain):
    """A slip of code has the shape of what it stands for, or else a control of its own shape and places."""
    controls = {control.name: control for control in controls_of(crate, complain)}
    for slip in slips:
        if slip.name in controls:
            if shapes(controls.pop(slip.name)) != shapes(slip):
                complain(f"the control of {slip.name} has another shape or other places")
        elif any(file.startswith("src/") and shape(old) != shape(new) for file, old, new in slip.changes):
            complain(f"{slip.name} changes the shape of the code and has no control")
    for name in controls:
        complain(f"a control of {name}, which is no slip")


class Refusals:
    """What is refused by itself, and which functions wait for a callee's proof."""

    def __init__(self, said, complain):
        self.functions, self.laws, self.waiting = set(), set(), set()
        # The functions of which a fact is refused, and not only a name.
        self.of_facts = set()
        # The function and the goal's name, of each answer to a goal that is not there.
        self.lost = set()
        # The function, the goal, the name of a step that is not there, and the nearest that is.
        self.lost_fields = set()
        self.read_errors(said, complain)
        for function, words in VERDICT.findall(said):
            if WAITS_FOR_CALLEE.search(words):
                self.waiting.add(function)
            elif words.startswith("no proof: "):
                self.functions.add(function)
                self.of_facts.add(function)
        for function, goal in sorted(self.lost):
            complain(f"the proof of {function} names a goal that the edited code lacks: {goal}")
        for function in sorted(self.functions - self.of_facts):
            complain(f"the proof of {function} is refused only for the names of steps that the edited code lacks")

    def read_errors(self, said, complain):
        for path, error in ERROR.findall(said):
            if RESTS_ON_REFUSED.search(error):
                continue
            folder, _, name = path.rpartition("/")
            named = re.match(r"`([^`]*)`: ", error)
            words = error[named.end() :] if named else error
            if name in OF_A_FUNCTION and folder != "specs":
                self.functions.add(function_of(folder))
                lost, field = LOST_GOAL.search(words), LOST_FIELD.search(words)
                if lost:
                    self.lost.add((function_of(folder), lost[1] or words))
                elif field:
                    self.lost_fields.add((function_of(folder), named[1] if named else "", field[1], field[2]))
                else:
                    self.of_facts.add(function_of(folder))
            else:
                self.laws.add(named[1] if named else error)
                if not named or LOST.search(words):
                    complain(f"{path}.antt cannot be read with this edit: {error}")

    def has(self, name):
        return name in self.laws or any(is_called(function, name) for function in self.functions)

    def waits(self, name):
        return any(is_called(function, name) for function in self.waiting)


def constants():
    """The terms of the constants of all crates, by their names."""
    sources = "".join(path.read_text(encoding="utf-8") for path in sorted(ROOT.glob("crates/*/src/**/*.rt")))
    return dict(re.findall(r"\bconst ([A-Z]\w*): \w+ = ([\w+* ]+);", sources))


def number_of(name, terms):
    """The number that a constant stands for, as text, or its name where its term is more than sums and products of constants."""
    term = name
    for _ in range(8):
        term = re.sub(r"\b[A-Z]\w*", lambda m: f"({terms.get(m[0], m[0])})", term)
    term = re.sub(r" as \w+", "", term)
    return str(eval(term)) if re.fullmatch(r"[\d ()+*]+", term) else name


def new_values(changes):
    """The words that a change brings in, and the numbers that the constants among them stand for."""
    words = {word for _, old, new in changes for word in set(re.findall(r"\w+", new)) - set(re.findall(r"\w+", old))}
    terms = constants()
    return words | {number_of(word, terms) for word in words if word in terms}


def folders_of(crate, function):
    """The folders of the function's proof, below the crate."""
    top = ROOT / "crates" / crate
    folders = (path.parent.relative_to(top) for path in sorted(top.glob("proofs/**/Answers.antt")))
    return [folder for folder in folders if function_of(folder.as_posix()) == function]


def successor(goal, asked, answered, changes):
    """What the goal's name goes on with up to its condition or index, this, and the same of the goal that stands for it, or None."""
    old = CONDITION.match(goal) or INDEX.match(goal)
    found = [old.re.match(name) for name in asked if name not in answered] if old else []
    found = [new for new in found if new and (new[1], new[3]) == (old[1], old[3])]
    if len(found) > 1:
        values = new_values(changes)
        found = [new for new in found if new[2] in values]
    return (old, found[0][2]) if len(found) == 1 else None


def renames_of(crate, said, changes):
    """For each goal that the edited code lacks the one that stands for it: its condition, or its index, in the function's proof.
    For each other step that it lacks the nearest one, in the answer that names it."""
    refusals = Refusals(said, lambda _: None)
    asked = {goal: re.findall(r"`([^`]*)`", goals) for goal, goals in ASKED.findall(said)}
    renames = []
    for function, goal in sorted(refusals.lost):
        for folder in folders_of(crate, function):
            answered = ANSWERED.findall((ROOT / "crates" / crate / folder / "Answers.antt").read_text(encoding="utf-8"))
            found = successor(goal, asked.get(goal, ()), answered, changes)
            if found:
                old, new = found
                # A condition is named by the branch's other steps too.
                before = "[Tt]hen-|[Ee]lse-|[Ii]f-|[Ii]n-" if old.re == CONDITION else re.escape(old[1])
                renames.append((folder, None, rf"(?<![\w-])((?:[\w-]+-)?(?:{before})){re.escape(old[2])}(?![\w'])", rf"\g<1>{new}"))
    for function, goal, field, nearest in sorted(refusals.lost_fields, key=str):
        if nearest:
            renames += [(folder, goal, rf"\.{re.escape(field)}(?![\w'-])", f".{nearest}") for folder in folders_of(crate, function)]
    return renames


def function_of(folder):
    # The folder of functions that call one another begins with a plus.
    return folder.removeprefix("proofs/").removeprefix("+").replace("/", "::")


def form_refusals(said):
    """The functions whose proof is refused for its form."""
    return sorted({path.replace("/", "::") for path, error in OF_A_PROOF.findall(said) if OF_FORM.search(error)})


def is_called(function, name):
    return function == name or function.endswith("::" + name)


def slips_that_wait(edit, said):
    """The slips of functions that call a refused one, so that the prover has not tried them to their end."""
    refusals = Refusals(said, lambda _: None)
    return [slip for slip in slips_of(edit, lambda _: None) if any(refusals.waits(name) and not refusals.has(name) for name in slip.refused)]


def check_claims(slips, refusals, complain):
    """Each name of these slips is refused by itself, and no other function."""
    claimed = {}
    for slip in slips:
        if not slip.refused or not slip.changes:
            complain(f"{slip.name} has no '# refused:' or no 'old:' and 'new:'")
        for name in slip.refused:
            if name in claimed:
                complain(f"{claimed[name]} and {slip.name} both name {name}: one refusal cannot show both")
            claimed[name] = slip.name
    for function in sorted(refusals.functions):
        if not any(is_called(function, name) for name in claimed):
            complain(f"{function} is refused too, and no slip names it")
    return claimed


def check_edit(edit, complain):
    slips = slips_of(edit, complain)
    refusals = Refusals(said_of(edit), complain)
    alone = slips_that_wait(edit, said_of(edit))
    claimed = check_claims(slips, refusals, complain)
    for slip in alone:
        by_itself = Refusals(said_of(edit, slip), complain)
        check_claims([slip], by_itself, complain)
        for name in slip.refused:
            if by_itself.has(name):
                del claimed[name]
    for name, slip in claimed.items():
        if not refusals.has(name):
            complain(f"{slip}: {name} is not refused by itself")
    if not slips:
        complain("no slip")
    return slips


def is_named_in(crate, function, source):
    """Whether a source names the function of a crate, by its path or in an import of several names."""
    several = " ".join(re.findall(rf"\b{crate}::(?:\w+::)*\{{([^{{}}]*)\}}", source))
    return bool(re.search(rf"\b{crate}::(?:\w+::)*{function}\b", source) or re.search(rf"\b{function}\b", several))


def called_from_outside():
    """The functions of each crate that another crate calls, or a host."""
    sources = {}
    for file in sorted(ROOT.glob("crates/*/src/**/*.rt")):
        crate = file.relative_to(ROOT).parts[1]
        sources[crate] = sources.get(crate, "") + re.sub(r"//.*", "", file.read_text(encoding="utf-8"))
    for crate, source in sources.items():
        others = "".join(text for other, text in sources.items() if other != crate)
        entries = set(re.findall(r'pub extern "C" fn (\w+)', source))
        for function in sorted(set(re.findall(r"\bpub fn (\w+)", source)) | entries):
            if function in entries or is_named_in(crate, function, others):
                yield crate, function


def is_slipped(crate, function):
    # A crate of C entries has its slips where the functions are that they call.
    if crate.endswith("_c") and (ROOT / "crates" / crate[:-2]).is_dir():
        crate = crate[:-2]
    edits = (edit.read_text(encoding="utf-8") for edit in ROOT.glob(f"crates/{crate}/must-fail/*.edit"))
    return any(f"`{function}`" in text or re.search(rf"^# refused: .*\b{function}\b", text, re.M) for text in edits)


def crate_of(edit):
    return edit.parent.parent.name


def log_of(edit, slip=None):
    name = f"{edit.stem}.{slip.name}" if slip else edit.stem
    return ROOT / "target" / "must-fail" / crate_of(edit) / f"{name}.log"


def said_of(edit, slip=None):
    """What the prover said last."""
    return log_of(edit, slip).read_text(encoding="utf-8").rpartition(FOLLOWS)[2]


def try_edits(edits, is_whole_run):
    """Has the prover try each edit that was not tried yet as it stands; what it said goes into the edit's log, below a sum of what it read.
    A slip that waits for a callee is tried by itself too. A whole run proves every crate first, and says which is not proved."""
    crates, kit = prover.dependencies(), prover.version()
    of_crate = {}
    for edit in edits:
        of_crate.setdefault(crate_of(edit), []).append((edit, prover.sum_of(crate_of(edit), crates, edit, kit)))

    def is_tried(edit, told, slip=None):
        log = log_of(edit, slip)
        return log.exists() and log.read_text(encoding="utf-8").partition("\n")[0] == told

    def try_one(copy, edit, told, slips, slip=None):
        if is_tried(edit, told, slip):
            return
        changes = [change for it in slips for change in it.changes]
        said, status = copy.check(crate_of(edit), changes)
        renames = renames_of(crate_of(edit), said, changes)
        if renames:
            followed, status = copy.check(crate_of(edit), changes, renames)
            said += f"{FOLLOWS}\n{followed}"
        log_of(edit, slip).parent.mkdir(parents=True, exist_ok=True)
        log_of(edit, slip).write_text(f"{told if status in (0, 1) else 'no verdict'}\n{said}", encoding="utf-8")

    def try_crate(copy, crate):
        for edit, told in of_crate[crate]:
            try_one(copy, edit, told, slips_of(edit, lambda _: None))
            for slip in slips_that_wait(edit, said_of(edit)):
                try_one(copy, edit, told, [slip], slip)

    def is_whole(crate):
        return all(is_tried(edit, told) and all(is_tried(edit, told, slip) for slip in slips_that_wait(edit, said_of(edit))) for edit, told in of_crate[crate])

    # Those with the most edits first, so that no lane ends long after the others.
    left = sorted((crate for crate in of_crate if not is_whole(crate)), key=lambda crate: -len(of_crate[crate]))
    failed = prover.prove_all() if is_whole_run and left else []
    prover.in_copies(try_crate, left)
    return failed


def main():
    asks_forms = "--forms" in sys.argv[1:]
    names = [word for word in sys.argv[1:] if word != "--forms"]
    complaints = []
    edits = [edit for edit in sorted(ROOT.glob("crates/*/must-fail/*.edit")) if not names or crate_of(edit) in names]
    slips = {path.stem: [] for path in CONTROLS.glob("*.control") if not names or path.stem in names}
    complaints += try_edits(edits, not names)
    for edit in edits:
        crate = crate_of(edit)
        complain = lambda text, at=f"{crate}/{edit.stem}": complaints.append(f"{at}: {text}")
        slips.setdefault(crate, []).extend(check_edit(edit, complain))
        if not re.search(rf"^{prover.NOT_PROVED}", said_of(edit), re.M):
            complain(f"it is not refused, or the prover gave no verdict: {' '.join(said_of(edit).splitlines()[-3:])[:200]}")
        for function in form_refusals(said_of(edit)) if asks_forms else ():
            complain(f"the proof of {function} is refused for its form")
    for crate in sorted(slips):
        complain = lambda text, at=crate: complaints.append(f"{at}: {text}")
        called = [slip.name for slip in slips[crate]]
        check_shapes(crate, slips[crate], complain)
        for name in sorted({name for name in called if called.count(name) > 1}):
            complain(f"two slips are called {name}")
    for crate, function in called_from_outside():
        if (not names or crate in names) and not is_slipped(crate, function):
            complaints.append(f"{crate}: no slip of {function}, which is called from outside")
    print("".join(complaint + "\n" for complaint in complaints), end="")
    print(f"{sum(map(len, slips.values()))} slips in {len(edits)} must-fail edits, {len(complaints)} complaints")
    return 1 if complaints or not edits else 0


if __name__ == "__main__":
    sys.exit(main())
