#!/usr/bin/env python3
"""Lists the public calls of the program's crates: which wait, and which refuse, by what and in which clauses. tools/docs.py makes the
last column of docs/refusals.md of it, and tells what that leaves out.

    tools/calls.py            prints the refusals, type by type, with the calls that answer them

A call refuses where its answer is a `Result`, or names a type by which others do. A type whose name two crates have is told with its crate.
"""

import collections
import functools
import os
import re

TOP = os.path.dirname(os.path.dirname(os.path.abspath(__file__)))
PROGRAMS = ("erm_main", "erm_explain_main", "erm_log_main", "erm_desk_checkpoint", "erm_bank")
MEMORY = "AllocError"
WITHIN = {"ProgramsOnDisk": "ProgramsStop"}  # what is answered beside other things, in a field


class Call:
    """A public function, or a function of a public trait: its crate, name, parameters, answer, and clauses with their names."""

    def __init__(self, crate, name, text, owner, imports):
        self.crate, self.name, self.owner, self.imports = crate, name, owner, imports
        head = " ".join(re.split(r"\n\s*(?:requires|ensures|ghost|//)", text)[0].split())
        self.takes, _, answer = head.partition("->")
        self.answer = re.sub(r" where .*|[;{]*$", "", answer).strip()
        self.clauses = re.findall(r"ensures (\w*) ?\{(.*?)\};?\n", text + "\n", re.S)

    def waits(self):
        """Whether it takes a right to wait, or its type holds one."""
        return bool(re.search(r"\brt: ", self.takes) and re.search(r"\bWait\b", self.takes)) or bool(re.search(r"\bWait\b", self.owner))

    def refusal(self):
        """The type of what a `Result` has where it refuses, or None."""
        if self.answer.startswith("io::Result<"):
            return "io::Error"
        if not self.answer.startswith("Result<"):
            return None
        depth, last = 0, 7
        for at, sign in enumerate(self.answer[:-1]):
            depth += (sign in "<([") - (sign in ">)]")
            if sign == "," and depth == 1:
                last = at + 1
        return self.answer[last:-1].strip()

    def kind(self, bare):
        """The name of a type as it is told."""
        homes = homes_of(bare)
        if len(homes) < 2:
            return bare
        named = [it for it in re.findall(rf"\buse (\w+)::(?:\w+::)*(?:\{{[^}}]*\b{bare}\b|{bare}\b)", self.imports) if it in homes]
        return f"{(named or [self.crate])[0]}::{bare}"

    def tells(self):
        """The clauses that speak of a refusal: by itself, or with the answer as a whole."""
        return [name for name, text in self.clauses if re.search(r"\bresult\b", text) and (re.search(r"IfErr|\bErr\b", text) or not re.search(r"IfOk|OnOk|IsOk", text))]


def sources_of(crate):
    for folder, _, files in sorted(os.walk(os.path.join(TOP, "crates", crate, "src"))):
        for file in sorted(it for it in files if it.endswith(".rt") and not it.startswith("tests")):
            with open(os.path.join(folder, file), encoding="utf-8") as it:
                yield it.read()


@functools.cache
def homes_of(name):
    """The crates that have a public type of this name, but those of examples and cases."""
    return tuple(crate for crate in sorted(os.listdir(os.path.join(TOP, "crates"))) if not re.search("_cases$|_bench$|_examples$", crate)
                 for text in sources_of(crate) if re.search(rf"^pub (enum|struct) {name}\b", text, re.M))


def calls_in(crate, text):
    rows = text.split("\n")
    imports = " ".join(re.findall(r"^use [^;]*;", text, re.M)).replace("\n", " ")
    owner, in_trait = "", False
    for at, row in enumerate(rows):
        if re.match(r"(pub )?(impl|trait|struct|enum)\b", row):
            owner, in_trait = row, row.startswith("pub trait")
        elif row.startswith("}"):
            owner, in_trait = "", False
        found = re.match(r"( *)(pub )?fn (\w+)", row)
        if found and (found[2] or in_trait or (owner.startswith("impl") and re.search(r"\bWait\b", owner))):
            end = next(i for i in range(at, len(rows)) if rows[i].rstrip().endswith((";", "{}")) or rows[i] == found[1] + "{" or (rows[i].endswith("{") and not re.match(r"\s*(requires|ensures)", rows[i])))
            yield Call(crate, found[3], "\n".join(rows[at : end + 1]), owner if owner.startswith("impl") else "", imports)


def program(uses):
    """The crates that the program stands on, and those of its public calls beside it."""
    found, todo = set(), list(PROGRAMS)
    while todo:
        name = todo.pop()
        if name in uses and name not in found:
            found.add(name)
            todo += uses[name]
    return [name for name in uses if name in found]


@functools.cache
def calls_of(crates):
    return tuple(call for crate in crates for text in sources_of(crate) for call in calls_in(crate, text))


def refusals(uses):
    """The calls that refuse, by the type that they answer then."""
    calls = calls_of(tuple(program(uses)))
    known = {call.refusal() for call in calls} - {None, "u64"} | {"Stopped"}
    by_type = collections.defaultdict(list)
    for call in calls:
        bare = [call.refusal()] if call.refusal() else [it for it in re.findall(r"\w*Stop(?:ped)?\b", call.answer) if it in known]
        bare += [WITHIN[it] for it in re.findall(r"\w+", call.answer) if it in WITHIN]
        for it in bare:
            by_type[call.kind(it)].append(call)
    return by_type


def waiting(uses):
    return [call for call in calls_of(tuple(program(uses))) if call.waits()]


def by_crate(calls, tell):
    told = collections.defaultdict(list)
    for call in calls:
        if tell(call) not in told[call.crate]:
            told[call.crate].append(tell(call))
    return "; ".join(f"`{crate}`: {', '.join(names)}" for crate, names in told.items())


def cell_of(calls):
    """Calls as a cell of a table: crate by crate, each with the clauses that speak of its refusal."""

    def tell(call):
        clauses = ", ".join(it or "the one clause" for it in call.tells()) or ("" if call.refusal() in (MEMORY, "io::Error") else "**no clause**")
        return f"`{call.name}` ({clauses})" if clauses else f"`{call.name}`"

    return by_crate(calls, tell)


def names_of(calls):
    """Calls by their names alone, crate by crate."""
    return by_crate(calls, lambda call: f"`{call.name}`")


if __name__ == "__main__":
    import docs

    for kind, calls in refusals(docs.Crates().uses).items():
        print(f"{kind}: {cell_of(calls)}")
