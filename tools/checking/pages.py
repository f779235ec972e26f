"""What holds of all texts of the tree that git keeps: what they may cite, how long they may be, and what may not be there."""
import re

from repository import TOP, git

# The numbering of papers that no reader of the repository has. Behind a dot or a colon stands a name of code, as `IpAddr::V4`.
PAPERS = re.compile(r"(?<![\w.:])(R(1[0-6]|[1-9])[a-e]?|T[1-5]|D(2[0-3]|1[0-9]|[1-9])|W(2[0-2]|1[0-9]|[1-9])[ab]?|P[1-6]|V(1[0-8]|[1-9])"
                    r"|document 0[1-4]|0[1-4]-[a-z]+\.md)(?!\w)")
# What a text may name of the tools: a file, or a folder.
TOOL = re.compile(r"(?<![\w/])(?:tools|bench)/\w+(?:\.py)?\b")
TEXTS = (".rt", ".antt", ".md", ".edit", ".toml", ".txt", ".sh", ".py")
COMMANDS = (".ci/run", "tools/check", "tools/mutate", "tools/harm")
MOST_LINES, MOST_OCTETS = 40, 500_000
HANDLES = "Handles allowed: Threads, Wait, Net.\n"


def kept():
    """The files that git keeps, by their paths."""
    return git("ls-files").splitlines()


def texts():
    """The files that people write and read, with what they say."""
    for file in kept():
        if file.endswith(TEXTS) or file in COMMANDS:
            yield file, (TOP / file).read_text()


def papers():
    wrong, count = [], 0
    for file, text in texts():
        count += 1
        if PAPERS.search(text):
            wrong += [f"{file}:{place} cites a paper: {line.strip()[:100]}" for place, line in enumerate(text.splitlines(), 1) if PAPERS.search(line)]
    return f"{count:,} texts", wrong


def tools():
    named = {(file, tool) for file, text in texts() for tool in TOOL.findall(text)}
    return f"{len(named)} names", [f"{file} names {tool}, which is not there" for file, tool in sorted(named) if not (TOP / tool).exists()]


def crate_readmes():
    counts = {page.parent.name: len(page.read_text().splitlines()) for page in sorted((TOP / "crates").glob("*/README.md"))}
    wrong = [f"the README of {crate} has {count} lines, and may have {MOST_LINES}" for crate, count in counts.items() if count > MOST_LINES]
    return f"{len(counts)} READMEs of crates, of {max(counts.values())} lines at most", wrong


def size():
    octets = sum((TOP / file).stat().st_size for file in kept() if file.endswith(".md"))
    return f"{octets:,} octets of pages", [f"they may have {MOST_OCTETS:,}"] if octets >= MOST_OCTETS else []


def built():
    files = kept()
    return f"{len(files):,} files", [f"{file} is built, and git keeps it" for file in files if "out" in file.split("/")[:-1]]


def handles():
    return "1 line", [] if (TOP / "HANDLES").read_text() == HANDLES else [f"HANDLES is not {HANDLES.strip()!r}"]
