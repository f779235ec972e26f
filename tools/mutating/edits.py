"""Edits of the code of a crate, each of which the prover must refuse: those of the gate, those beside it, and planted ones.

They are tried by `rt must-fail` on copies of the tree, each over what earlier checks built of the crates below (`rt all check` builds all).
"""
import functools
import os
import re
import shutil

from mutating.copies import copy_sources, folder
from mutating.mutation import Mutation, Outcome
from repository import BESIDE, IN_GATE, PLANTED, TOP, edits, libraries

PLACES = {"gate": IN_GATE, "beside": BESIDE, "planted": PLANTED}
# An edit more costs less than a check of its crate, with which each copy begins, until there are about so many.
MOST_A_COPY = 10
SAID = re.compile(r"rt: must-fail (\w+/[\w.-]+\.edit): (refused, as it must be|.*)")


def found():
    for kind, place in PLACES.items():
        yield from (Mutation(kind, crate, crate, edit) for crate in libraries() for edit in edits(crate, place))


def link_built(copy, crates):
    """What was built is shared, since `rt` never writes into it but makes it anew."""
    for name in crates:
        built = TOP / "crates" / name / "out" / "rlib"
        if built.is_dir():
            shutil.copytree(built, copy / "crates" / name / "out" / "rlib", copy_function=os.link)


def tried(mutations, named, how):
    """What the prover says of these edits of one crate; of those of which it says nothing, the end of what else was said."""
    crate = mutations[0].crate
    with folder() as copy:
        link_built(copy, [name for name in copy_sources(copy, crate, named) if name != crate])
        place = copy / "crates" / crate / IN_GATE
        place.mkdir()
        for mutation in mutations:
            shutil.copy(mutation.file, place)
        done = how.run(["must-fail", crate], copy)
    said = {line[1]: line[2] for line in map(SAID.match, done.stdout.splitlines()) if line}
    for mutation in mutations:
        answer = said.get(f"{crate}/{mutation.file.name}", f"not tried: {(done.stdout + done.stderr)[-400:]}")
        yield mutation, Outcome(answer.startswith("refused"), answer)


def tasks(mutations, how):
    """Functions that try some of these edits of one crate each, on a copy."""
    named, groups = libraries(), {}
    for mutation in mutations:
        groups.setdefault((mutation.kind, mutation.crate), []).append(mutation)
    for group in groups.values():
        copies = -(-len(group) // MOST_A_COPY)
        yield from (functools.partial(tried, group[number::copies], named, how) for number in range(copies))
