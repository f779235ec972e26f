"""What several tools ask of the repository: its crates, the libraries of each, its edits, its commit, and what tools write into its pages."""
import datetime
import pathlib
import re
import subprocess

TOP = pathlib.Path(__file__).resolve().parent.parent
# Where the edits of a crate stand that the checker must refuse: those that the gate tries, and those beside it.
IN_GATE, BESIDE = "must-fail", "edits"
# Wrong bodies that were written from the contracts and definitions alone, in tools/planted/CRATE.
PLANTED = "planted"


def libraries(top=TOP):
    """The libraries of each crate, in the order of crates.txt."""
    named = {}
    for line in (top / "crates.txt").read_text().splitlines():
        crate, colon, beneath = line.split("#")[0].partition(":")
        if colon:
            named[crate.split()[0]] = beneath.split()
    return named


def with_beneath(crates, named):
    """These crates and all below them, the lowest first, but for the libraries of the kit."""
    found = {}

    def find(names):
        for name in names:
            if name in named and name not in found:
                find(named[name])
                found[name] = None

    find(crates)
    return list(found)


def sources(crate, parts=("src", "specs", "proofs"), top=TOP):
    """The sources of a crate, by their paths."""
    folders = [top / "crates" / crate / part for part in parts]
    return sorted(file for folder in folders for file in folder.rglob("*") if file.suffix in (".rt", ".antt"))


def edits(crate, place, top=TOP):
    """The edits of a crate in one of these places."""
    folder = top / "tools" / PLANTED / crate if place == PLANTED else top / "crates" / crate / place
    return sorted(folder.glob("*.edit"))


def lines_of(folder, pattern):
    """How many lines of these files hold text."""
    return sum(1 for file in folder.rglob(pattern) for line in file.read_text().splitlines() if line.strip())


def named_in(text):
    """The libraries that a source names: as `library::item` in code, or as `Rattle.library.specs.Item`."""
    return {name for pair in re.findall(r"\bRattle\.(\w+)\.|(?<![\w.:])(\w+)::", text) for name in pair}


def git(*words):
    """What a command of git prints, also in a tree of another user."""
    return subprocess.run(["git", "-c", "safe.directory=*", *words], cwd=TOP, capture_output=True, text=True, check=True).stdout


def today_and_commit():
    """The date and the commit, for what a run found; a tree with changes beside the commit is told."""
    changed = " with changes" if git("status", "--porcelain").strip() else ""
    return f"{datetime.date.today()}, commit {git('rev-parse', '--short=8', 'HEAD').strip()}{changed}"


def write_between_marks(page, name, lines):
    """Puts lines between the two marks of this name in a page."""
    begin, end = f"<!-- {name}: begin -->\n", f"<!-- {name}: end -->\n"
    before, _, rest = page.read_text().partition(begin)
    _, mark, behind = rest.partition(end)
    if not mark:
        raise ValueError(f"{page.name} has no marks {begin.strip()} and {end.strip()}")
    page.write_text(before + begin + "".join(f"{line}\n" for line in lines) + end + behind)
