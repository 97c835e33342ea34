#!/usr/bin/env python3
"""Turns proofs/F/Proof.antt files of the older Rattle, in which a term `tie.spec` took each goal's proof, to Invariants.antt
and Answers.antt.

usage: python3 tools/answers.py CRATE NAMES    at the top; NAMES is the names.json of `rt check --generated OUT --old-names`

A path such as `c.before.before.if1.true` becomes `c.if-a-b.true`, a place in a pair of clauses the clause's name. What it
could not turn it prints: the file, the goal and what was seen.
"""

import json
import os
import re
import sys

CHAIN = r"[^\W\d][\w'-]*(?:\.[\w'-]+)*"
TOKEN = re.compile(rf'"(?:[^"\\]|\\.)*"|{CHAIN}|\s+|.', re.S)


def flat(name):
    return name.replace("_", "-").lower()


# ---- contracts, from the sources
def contracts(crates_folder):
    """Function name to (names of requires clauses, names of ensures clauses, parameters)."""
    found = {}
    for folder, folders, files in os.walk(crates_folder):
        folders[:] = [d for d in folders if d != "out"]
        for name in files:
            if not name.endswith(".rt"):
                continue
            path = os.path.join(folder, name)
            crate = os.path.relpath(path, crates_folder).split(os.sep)[0]
            text = open(path, encoding="utf-8").read()
            for m in re.finditer(r"(?ms)^[ ]*(?:pub )?(?:unsafe )?(?:extern \"C\" )?fn (\w+)(.*?)^[ ]*\{\n", text):
                head = m.group(2)
                req = re.findall(r"(?m)^\s*requires\*? (?:(\w+) )?\{", head)
                ens = re.findall(r"(?m)^\s*ensures\*? (?:(\w+) )?\{", head)
                found.setdefault((crate, m.group(1)), (req, ens))
                found.setdefault(("&mut", crate, m.group(1)), re.findall(r"(\w+): &(?:'\w+ )?mut \[", head.split("->")[0]))
    return found


class Function:
    def __init__(self, crate, key, lts, known):
        self.crate, self.key, self.lts, self.known = crate, key, lts, known
        self.parent = {p[0]: p[1] for p in lts["places"]}
        self.step = {p[0]: (flat(p[2][0]), p[2][1]) for p in lts["places"]}
        self.callee = {p[0]: p[3] for p in lts["places"]}
        self.at = {new: place[0] for (_, new), place in zip(lts["needs"], lts["asked_at"])}
        # of each place the fields that an arm has now: arm, field, and the old step and path
        self.arms = {p[0]: arm for p, arm in zip(lts["places"], lts["arms"])}

    def arm_field(self, place, step, fields):
        best = None
        while place is not None:
            arm = self.arms.get(place)
            for field, old, path in arm[2] if arm else []:
                if flat(old) == flat(step) and fields[: len(path)] == path and (best is None or len(path) > best[0]):
                    best = (len(path), arm[0], field)
            place = self.parent.get(place)
        return best

    def slices(self, callee):
        parts = callee.split("::") if callee else [""]
        return self.known.get(("&mut", parts[0], parts[-1]), [])

    def clauses(self, callee, kind):
        """The names of a callee's clauses, where it has several."""
        if not callee:
            return None
        parts = callee.split("::")
        crate = parts[0]
        it = self.known.get((crate, parts[-1]))
        if not it:
            return None
        names = it[0] if kind == "requires" else it[1]
        return names if len(names) > 1 else None

    def own(self, kind):
        return self.clauses(self.crate + "::" + self.key.split(".")[-1], kind)


def of_args(fields):
    """The fields of an argument; the parameter `list` had no name of its own."""
    return ["list" if re.fullmatch(r"t[1-9]", g) and i == 0 else g.replace("-", "_") for i, g in enumerate(fields)]


def pick(fields, names):
    """A path into nested pairs of clauses, as the clause's name and the rest."""
    at = 0
    rest = list(fields)
    while True:
        if at == len(names) - 1:
            return [names[at]] + rest
        if not rest:
            return None
        f = rest.pop(0)
        if f == "0":
            return [names[at]] + rest
        if f != "1":
            return None
        at += 1


class Turner:
    def __init__(self, function, place, complain):
        self.f, self.place, self.complain = function, place, complain
        # a name to ("place",), ("step", old name), ("args",) or ("clauses", names)
        self.alias = {"c": ("place",)}

    def chain(self, text):
        """The turned chain, and what it stands for where that is a place, a step, the arguments or a pair of clauses."""
        parts = text.split(".")
        kind, fields = self.alias.get(parts[0]), parts[1:]
        if kind is None:
            return text, None
        if kind[0] == "clauses":
            if not fields:
                return text, kind
            return ".".join([parts[0]] + self.picked(fields, kind[1], text)), None
        if kind[0] == "args":
            return ".".join([parts[0]] + of_args(fields)), None
        if kind[0] == "step":
            return self.step(kind[1], fields, text) if fields else (text, kind)
        if not fields and parts[0] != "c":
            return "c", kind
        # each place has the steps before it
        while fields and fields[0] == "before":
            fields.pop(0)
        if not fields:
            return "c", kind
        first = fields.pop(0)
        if first == "requires":
            names = self.f.own("requires")
            if names and fields:
                return ".".join(["c", first] + self.picked(fields, names, text)), None
            return ".".join(["c", first] + fields), ("clauses", names) if names else None
        if first == "args":
            return ".".join(["c", first] + of_args(fields)), None if fields else ("args",)
        if first in ("ranges", "well_formed", "well-formed", "type_inv", "lifetimes", "blocks", "element_fits"):
            return ".".join(["c", first.replace("-", "_")] + of_args(fields)), None
        return self.step(first, fields, text)

    def picked(self, fields, names, text):
        got = pick(fields, names)
        if got is None:
            self.complain(f"part of clauses: {text}")
        return got or fields

    def step(self, name, fields, text):
        """A step by its old name, with its fields."""
        for old in (name, re.sub(r"_(lem|holds)$", "", name)):
            arm = self.f.arm_field(self.place, old, fields)
            if arm:
                return ".".join(["c", arm[1], arm[2]] + fields[arm[0] :]), None
            at = self.place
            while at is not None and self.f.step[at][0] != flat(old):
                at = self.f.parent[at]
            if at is not None:
                break
        if at is None:
            self.complain(f"no step {name}: {text}")
            return text, None
        rest, stands = self.of_step(at, fields, text)
        return ".".join(["c", self.f.step[at][1]] + rest), ("step", name) if not fields else stands

    def of_step(self, at, fields, text):
        """The fields of a step, turned, and what they stand for."""
        if not fields:
            return fields, None
        if not self.f.callee[at]:
            if re.match(r"if-|loop-.*-test", self.f.step[at][1]):
                fields = [{"taken": "true", "left": "false"}.get(fields[0], fields[0])] + fields[1:]
            return [fields[0] if fields[0] == "invariant" else fields[0].replace("-", "_")] + fields[1:], None
        if len(fields) > 1 and fields[0] in ("auto", "new") and fields[1].isdigit():
            # the pairs are over the parameters
            names = self.f.lts["params"].get(self.f.callee[at], [])
            k = 0
            while 1 + k < len(fields) and fields[1 + k] == "1":
                k += 1
            return [fields[0]] + ([names[k]] + fields[2 + k :] if k < len(names) else fields[1:]), None
        if fields[0] == "ensures":
            names = self.f.clauses(self.f.callee[at], "ensures")
            if names and len(fields) == 1:
                return fields, ("clauses", names)
            if names:
                return ["ensures"] + self.picked(fields[1:], names, text), None
        return fields, None

    def turn(self, body):
        tokens = TOKEN.findall(body)
        out = []
        i = 0
        while i < len(tokens):
            t = tokens[i]
            if t == "let":
                m = re.match(rf"let\s+([\w'-]+)\s*=\s*({CHAIN})\s+in\b[ ]*", "".join(tokens[i : i + 12]))
                if m and m.group(2).split(".")[0] in self.alias:
                    turned, kind = self.chain(m.group(2))
                    name = m.group(1)
                    used = 0
                    j = i
                    while used < len(m.group(0)):
                        used += len(tokens[j])
                        j += 1
                    if kind and kind[0] in ("place", "step"):
                        self.alias[name] = kind
                        # the line that is left empty goes too
                        i = j
                        while i < len(tokens) and tokens[i].isspace():
                            i += 1
                        continue
                    if kind:
                        self.alias[name] = kind
                    else:
                        self.alias.pop(name, None)
                    out.append(f"let {name} = {turned} in" + ("" if tokens[j - 1] == "in" else " "))
                    i = j
                    continue
            if re.match(r"[^\W\d]", t):
                out.append(self.chain(t)[0])
            else:
                out.append(t)
            i += 1
        return "".join(out)


def split_blocks(text):
    blocks, now = [], []
    for line in text.split("\n"):
        starts = line and not line[0].isspace()
        head = next((l for l in now if l.strip() and not l.startswith("--")), None)
        if starts and head is not None and line[0] not in ")}]":
            name = re.match(r"(?:abbrev |pub |unfoldable )*([^\s:]+)", head).group(1)
            same = re.match(re.escape(name) + r"(?=[\s=])", line) or line.startswith("unfolding ")
            if not same or head.startswith("use "):
                blocks.append("\n".join(now).rstrip())
                now = []
        now.append(line)
    if now:
        blocks.append("\n".join(now).rstrip())
    return [b for b in blocks if b.strip()]


def arguments(text):
    """The arguments of an application, split at the top level."""
    out, depth, now = [], 0, ""
    for ch in text:
        if ch in "({[":
            depth += 1
        if ch in ")}]":
            depth -= 1
        if ch.isspace() and depth == 0:
            if now:
                out.append(now)
            now = ""
        else:
            now += ch
    if now:
        out.append(now)
    return out


def pairs(text, names):
    """A nested pair (a, (b, c)) as a record of the clauses, or None."""
    text = text.strip()
    if not (text.startswith("(") and text.endswith(")")):
        return None
    depth, parts, now = 0, [], ""
    inner = text[1:-1]
    for ch in inner:
        if ch in "({[":
            depth += 1
        if ch in ")}]":
            depth -= 1
            if depth < 0:
                return None
        if ch == "," and depth == 0:
            parts.append(now)
            now = ""
        else:
            now += ch
    parts.append(now)
    parts = [p.strip() for p in parts if p.strip()]
    if len(parts) != 2:
        return None
    if len(names) == 2:
        return parts
    rest = pairs(parts[1], names[1:])
    return None if rest is None else [parts[0]] + rest


def recorded(body, names, complain):
    """The body with its last term, a nested pair, as a record of clauses."""
    end = body.rstrip()
    if end.endswith(")"):
        depth = 0
        for at in range(len(end) - 1, -1, -1):
            depth += {")": 1, "(": -1}.get(end[at], 0)
            if depth == 0:
                break
        got = pairs(end[at:], names)
        if got:
            return end[:at] + "record { " + "; ".join(f"{n} = {p}" for n, p in zip(names, got)) + " }"
    complain("clauses: " + ", ".join(names))
    return body


def turn_file(path, crate, lts_of, known):
    where = os.path.dirname(path)
    relative = where.split("/proofs/", 1)[1]
    key = relative.replace("/", ".")
    lts = lts_of.get(f"Rattle-{crate}-proofs.{key}.Lts")
    text = open(path, encoding="utf-8").read()
    said = []
    if lts is None:
        print(f"{path}: no names for {key}")
        return
    f = Function(crate, key, lts, known)
    blocks = split_blocks(text)
    uses = [b for b in blocks if b.startswith("use ")]
    uses = "\n".join(uses).split("\n")
    blocks = [b for b in blocks if not b.startswith("use ")]
    spec = next((b for b in blocks if "tie.close" in b or "tie.spec" in b), None)
    if spec is None:
        print(f"{path}: no tie.spec")
        return
    blocks.remove(spec)
    m = re.search(r"\(tie\.spec\s(.*)\)\s*$", spec, re.S)
    args = arguments(m.group(1)) if m else []
    needs = lts["needs"]
    given = [a for a in args if re.match(r"(invariant|decreases)-", a)]
    args = [a for a in args if a not in given]
    by_name = {}
    if len(args) == len(needs):
        for a, (old, new) in zip(args, needs):
            by_name[a] = new
    elif args:
        said.append(f"tie.spec had {len(args)} goals, there are {len(needs)}: " + " ".join(args))
    old_needs = {flat(old): new for old, new in needs}
    used = set()

    def goal_of(name, signature):
        need = re.search(r"tie\.Need-([\w'-]+)", signature).group(1)
        stripped = re.sub(r"^(overflow|bounds|offset|nonzero)-", "", flat(need))
        if name in by_name:
            return by_name[name]
        return old_needs.get(flat(need)) or old_needs.get(stripped)

    loops = lts["loops"]
    loop_names = {flat(l[0][0]): l[0][1] for l in loops}
    invariants, answers, helpers = [], [], []
    helper_names = {}
    for b in blocks:
        comment = ""
        lines = b.split("\n")
        while lines and lines[0].startswith("--"):
            comment += lines.pop(0) + "\n"
        b = "\n".join(lines)
        if not b.strip():
            helpers.append(comment.rstrip())
            continue
        sig = lines[0]
        name = re.match(r"(?:abbrev |pub |unfoldable )*([^\s:]+)", sig).group(1)
        if re.search(r":\s*tie\.(invariant|decreases)-", sig):
            old = re.search(r"tie\.((?:invariant|decreases)-[\w'-]+)", sig).group(1)
            word, loop = old.split("-", 1)
            new_loop = loop_names.get(flat(loop))
            index = next((i for i, l in enumerate(loops) if flat(l[0][0]) == flat(loop)), None)
            if index is None:
                said.append(f"no loop {loop}")
                continue
            names, changed = loops[index][1], lts["changed"][index]
            body = b.split("\n", 1)[1]
            m = re.match(rf"{re.escape(name)}((?:\s+[^\s=]+)*)\s+=\s*(.*)$", body, re.S)
            variables = m.group(1).split()
            fields = [("l.initial." if ch else "l.") + n for n, ch in zip(names, changed)] + ["l." + n for n, ch in zip(names, changed) if ch]
            if len(variables) != len(fields):
                said.append(f"{name} has {len(variables)} variables for {fields}")
            stands = {v: x for v, x in zip(variables, fields) if v != "_"}
            tokens = TOKEN.findall(m.group(2))
            is_let = False
            out = []
            for i, t in enumerate(tokens):
                # a field's name in a record stays
                is_field = re.match(r"\s*=[^=]?", "".join(tokens[i + 1 : i + 4])) and not is_let
                if re.match(r"[^\W\d]", t) and not is_field:
                    head, dot, tail = t.partition(".")
                    t = stands.get(head, head) + dot + tail
                if t.strip():
                    is_let = t == "let"
                out.append(t)
            invariants.append(f"{comment}abbrev pub {word}-{new_loop} : goal.{word}-{new_loop}\n{word}-{new_loop} l = {''.join(out)}")
            continue
        if "tie.Need-" in sig:
            goal = goal_of(name, sig)
            if goal is None:
                said.append(f"no goal for {name}: {sig}")
                goal = "LOST-" + name
            used.add(goal)
            rest = lines[1:]
            unfold = [l for l in rest if l.startswith("unfolding ")]
            clause = "\n".join(l for l in rest if not l.startswith("unfolding "))
            m = re.match(rf"{re.escape(name)}\s+c(\s+κs)?\s+=(.*)$", clause, re.S)
            if not m:
                said.append(f"{name} has another form")
                answers.append(comment + b)
                continue
            complain = lambda s, name=name: said.append(f"{name}: {s}")
            place = f.at.get(goal, lts["places"][0][0])
            body = Turner(f, place, complain).turn(m.group(2))
            # the test of a `!` says it of what stands behind it
            body = re.sub(r"\bnot-(?:true|false) [\w'.-]+ (\(?)([\w'.-]+\.(?:true|false))(\)?)", lambda m: m.group(2) if m.group(1) and m.group(3) else m.group(1) + m.group(2) + m.group(3), body)
            names = None
            if goal == "returns" or goal.startswith("returns-"):
                names = f.own("ensures")
            elif "-requires" in goal:
                called = re.sub(r"-requires.*$", "", goal)
                callee = next((f.callee[p] for p in f.step if f.callee[p] and f.step[p][1].split("-")[0] == called.split("-")[0]), None)
                names = f.clauses(callee, "requires") if callee else f.clauses(crate + "::" + called.split("-")[0], "requires")
            if names:
                body = recorded(body, names, complain)
            answers.append("\n".join([f"{comment}pub {goal} : goal.{goal}"] + unfold + [f"{goal} c ={body}"]))
            continue
        if "tie." in b:
            said.append(f"helper over places: {name}")
        helper_names[name] = name.replace("-", "_") if name.isascii() and "-" in name and name[0].islower() else name
        helpers.append(comment + b)
    # terms that stand in tie.spec itself
    if len(args) == len(needs):
        for a, (old, new) in zip(args, needs):
            if a.startswith("(λ") and "search rules)" not in a and new not in used:
                m = re.match(r"\(λ c(?: κs)?\.\s*(.*)\)$", a, re.S)
                if m:
                    complain = lambda s, new=new: said.append(f"{new}: {s}")
                    body = Turner(f, f.at[new], complain).turn(m.group(1))
                    answers.append(f"pub {new} : goal.{new}\n{new} c = {body}")
                else:
                    said.append(f"inline: {new} {a}")
            elif not a.startswith("(") and a not in ("_",) and new not in used:
                said.append(f"{new} is {a}")
    module = f"Rattle.{crate}.proofs.{key}"
    kept = [u for u in uses if not re.search(r"\.(Statement\.\{statement\}|Tie as tie)$", u)]

    def file(kind, parts):
        t = "\n".join(kept + [f"use {module}.{kind} as goal"]) + "\n\n" + "\n\n".join(parts) + "\n"
        for old, new in helper_names.items():
            if old != new:
                t = re.sub(rf"(?<![\w'.-]){re.escape(old)}(?![\w'-])", new, t)
        return t

    if invariants:
        open(os.path.join(where, "Invariants.antt"), "w", encoding="utf-8").write(file("Given", invariants))
    if answers:
        open(os.path.join(where, "Answers.antt"), "w", encoding="utf-8").write(file("Goals", helpers + answers))
    elif helpers and not invariants:
        said.append("helpers alone")
    os.remove(path)
    for s in said:
        print(f"{relative}: {s}")


def main():
    crate, names = sys.argv[1:3]
    lts_of = json.load(open(names, encoding="utf-8"))
    known = contracts("crates")
    for folder, folders, files in os.walk(f"crates/{crate}/proofs"):
        if "Proof.antt" in files:
            path = os.path.join(folder, "Proof.antt")
            if "Tie as tie" in open(path, encoding="utf-8").read():
                turn_file(path, crate, lts_of, known)


if __name__ == "__main__":
    main()
