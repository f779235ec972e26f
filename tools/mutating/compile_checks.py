"""Wrong callers of values that are spent once, which must not compile, while the right ones beside them do.

A case is a file of tools/compile_checks; its name does not end as that of a source, since the gate refuses sources outside a crate. Its first line,
`// refused: WORDS`, has what the compiler says of it, and its second, `// crate: NAME`, the crate that it calls. A line that ends in `// defect` is in the wrong
caller alone, one that ends in `// mended` in the right one alone. Each is compiled and not proved, in a crate of a copy of the sources that it stands on.
"""
import functools
import re

from mutating.copies import copy_sources, folder
from mutating.mutation import Mutation, Outcome
from repository import TOP, libraries

FOLDER = TOP / "tools" / "compile_checks"
CASE = "compile_case"
HEAD = re.compile(r"// refused: (?P<words>.+)\n// crate: (?P<crate>\w+)\n")
DEFECT, MENDED = "// defect", "// mended"
# Without a test there is nothing to run, and so nothing is compiled.
TEST = "\n#[test]\nfn compiles(_rt: HostRuntime) -> Result<(), std::test::Fail> {\n    Ok(())\n}\n"


def head(file):
    """What the compiler says of a case, and the crate that it calls."""
    return HEAD.match(file.read_text())


def found():
    cases = {file: head(file)["crate"] for file in sorted(FOLDER.glob("*.case"))}
    return [Mutation("compile", crate, crate, file) for file, crate in cases.items()]


def compiled(case, lines, without, how):
    """Whether a caller compiles, and what the compiler says: the lines that do not end in this mark."""
    kept = [line for line in lines if not line.endswith(without)]
    (case / "src" / "lib.rt").write_text("//! A caller.\n#![tactic(auto)]\n\n" + "\n".join(kept) + "\n" + TEST)
    done = how.run(["try", "--test"], case)
    return done.returncode == 0, done.stdout + done.stderr


def judged(case, file, how):
    _, _, *lines = file.read_text().splitlines()
    compiles, _ = compiled(case, lines, DEFECT, how)
    if not compiles:
        return Outcome(False, "the right caller does not compile")
    compiles, said = compiled(case, lines, MENDED, how)
    if compiles:
        return Outcome(False, "the wrong caller compiles")
    if head(file)["words"] not in said:
        return Outcome(False, "the wrong caller is refused for another reason")
    return Outcome(True, "refused, and right without the defect")


def tried(mutations, crate, how):
    named = libraries()
    with folder() as copy:
        copy_sources(copy, crate, named)
        with (copy / "crates.txt").open("a") as listed:
            print(f"{CASE}: {' '.join(named[crate])} {crate}", file=listed)
        case = copy / "crates" / CASE
        (case / "src").mkdir(parents=True)
        for mutation in mutations:
            yield mutation, judged(case, mutation.file, how)


def tasks(mutations, how):
    """One function for all of a crate, since they share what is compiled below them."""
    groups = {}
    for mutation in mutations:
        groups.setdefault(mutation.crate, []).append(mutation)
    return [functools.partial(tried, group, crate, how) for crate, group in groups.items()]
