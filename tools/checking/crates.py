"""Whether the pages name each crate, and none that is not there.

Crates are listed in crates.txt. Each has a README; each but those of tests stands in the picture of README.md and in the list of docs/ARCHITECTURE.md, and, if
it has definitions, in docs/DEFINITIONS.md. No page links to another. (The table of docs/GATE.md is written by tools/measure_gate.py.)
"""
import re

from repository import TOP, libraries

# What a page says of crates, and nothing else: the picture, which is a block of mermaid; the links of a list; the first cells of a table.
PICTURE = re.compile(r"```mermaid\n(.*?)```", re.S)
LINK = re.compile(r"\]\((?:\.\./)?crates/(\w+)/README\.md\)")
CELL = re.compile(r"^\| ((?:`\w+`(?:, )?)+) \|", re.M)


def is_of_tests(crate):
    return crate.endswith("_tests")


def has_definitions(crate):
    return any(file.name != "Lib.antt" for file in (TOP / "crates" / crate / "specs").rglob("*.antt"))


def missing(named):
    """What a page or a folder lacks, a line each."""
    folders = {folder.name for folder in (TOP / "crates").iterdir() if (folder / "src").is_dir()}
    readme, architecture, definitions = ((TOP / page).read_text() for page in ("README.md", "docs/ARCHITECTURE.md", "docs/DEFINITIONS.md"))
    pictured = set(re.findall(r"\w+", " ".join(PICTURE.findall(readme))))
    listed = set(LINK.findall(architecture))
    defined = {name for cells in CELL.findall(definitions) for name in re.findall(r"\w+", cells)} | {"mc_model"}
    yield from (f"crates.txt names no {crate}, of which there is a folder" for crate in sorted(folders - set(named)))
    yield from (f"crates.txt names {crate}, of which there is no folder" for crate in sorted(set(named) - folders))
    for crate in named:
        if not is_of_tests(crate):
            if not (TOP / "crates" / crate / "README.md").is_file():
                yield f"{crate} has no README"
            if crate not in pictured:
                yield f"the picture of README.md has no {crate}"
            if crate not in listed:
                yield f"docs/ARCHITECTURE.md lists no {crate}"
            if has_definitions(crate) and crate not in defined:
                yield f"docs/DEFINITIONS.md has no row of {crate}"
    for page in sorted([TOP / "README.md", *(TOP / "docs").glob("*.md")]):
        yield from (f"{page.relative_to(TOP)} links to {crate}, which is not there" for crate in LINK.findall(page.read_text()) if crate not in named)


def check():
    """How many crates there are, and what the pages lack of them."""
    named = libraries()
    return f"{len(named)} crates", list(missing(named))
