"""Whether the program tells the version that CHANGELOG.md begins with: the date of its newest changes."""
import re

from repository import TOP

HEADING = re.compile(r"^## (\d{4}-\d{2}-\d{2})$", re.M)
PROGRAM = re.compile(r'PROGRAM: &str = "centre (\S+) of Tomveul, SMPP 3\.4"')


def check():
    """The version, and what differs."""
    file = "crates/serve_runner/src/version.rt"
    newest, told = HEADING.search((TOP / "CHANGELOG.md").read_text()), PROGRAM.search((TOP / file).read_text())
    if not newest or not told:
        return "no version", ["CHANGELOG.md has no heading that is a date"] if not newest else [f"{file} tells no version"]
    return told[1], [] if newest[1] == told[1] else [f"{file} tells {told[1]}, and CHANGELOG.md begins with {newest[1]}"]
