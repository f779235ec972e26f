"""In what docs/PROMISES.md differs from the tree: edits that name no promise of it, promises whose edits are others than it lists, promises of whose edits the
gate tries none, and functions that are not there. `tools/promises.py --write` writes the edits there.

The first line of an edit names its promise, as `promise: admission`. That is the key with which the last column of a row begins, in italics; the edits behind
it are written by the tool, those of the gate in bold. The column before has functions, or clauses of them as `run.chosen`, each group with its crate after it
in parentheses. A row that begins with an arrow is a part of the promise above it.
"""
import re

from repository import BESIDE, IN_GATE, TOP, edits, libraries, sources

PAGE = TOP / "docs/PROMISES.md"
GROUP = re.compile(r"(.*?)\(`(\w+)`\)", re.DOTALL)
WORD = re.compile(r"`([\w:]+)(?:\.\w+)?`")
KEY = re.compile(r"\*(\w+)\*")
PROMISE = re.compile(r"promise: (\w+)\n")
PART = "\u21b3"
# How many edits of a promise its row names.
MOST_NAMED = 1
# Crates whose check takes more than 200 seconds of processor time: the gate tries one edit of each at most, and asks for none.
DEAR = {
    "config", "config_warnings", "esme_service", "fate_chain", "journal_parts", "node_core", "node_kept", "node_parts", "node_stores", "node_threads",
    "node_workers", "record_rows", "script_site", "serve_nodes", "serve_runner", "serve_sessions", "server", "sql_records", "sql_store",
    "waiting_requests", "world",
}


def cells_of(line):
    """The cells of a row of the page: what it promises, its functions and, if it has some, its edits; none of another line."""
    cells = [cell.strip() for cell in line.strip("|").split("|")]
    return cells if line.startswith("| ") and cells[0] != "Promise" else []


def rows(text):
    """What each row promises, its functions, and its edits behind their key."""
    for cells in filter(None, map(cells_of, text.splitlines())):
        yield cells[0], cells[1], cells[2] if len(cells) == 3 else ""


def key_of(cell):
    found = KEY.match(cell)
    return found[1] if found else None


def all_edits():
    """Each edit with the key of its promise, which is None if it names none, and whether the gate tries it."""
    for crate in libraries():
        for place in (IN_GATE, BESIDE):
            for edit in edits(crate, place):
                found = PROMISE.match(edit.read_text())
                yield edit, found[1] if found else None, place == IN_GATE


def column(key, found):
    """The edits of a promise, as its row has them: those of the gate, some of the others, and how many more there are."""
    mine = sorted((not in_gate, edit.stem) for edit, promise, in_gate in found if promise == key)
    named = [f"`{name}`" if beside else f"**`{name}`**" for beside, name in mine[:MOST_NAMED]]
    more = [f"{len(mine) - MOST_NAMED} more"] * (len(mine) > MOST_NAMED)
    return f"*{key}*: " + ", ".join(named + more)


def written(text, found):
    """The page with the edits that the tree has."""
    lines = text.split("\n")
    for number, line in enumerate(lines):
        cells = cells_of(line)
        if len(cells) == 3 and key_of(cells[2]):
            lines[number] = f"| {cells[0]} | {cells[1]} | {column(key_of(cells[2]), found)} |"
    return "\n".join(lines)


def missing_words(functions):
    """The functions and types of a row that their crate does not have."""
    for words, crate in GROUP.findall(functions):
        text = "\n".join(file.read_text() for file in sources(crate, ["src"]))
        for word in WORD.findall(words):
            if not re.search(rf"\b(fn|struct|enum|trait|codes!?) ?\(?{word.split('::')[-1]}\b", text):
                yield f"{crate} has no {word}"


def strangers(found, table):
    """Edits that name no promise, or one of which no row has the key, or whose crate the row does not name; and keys that stand twice, or have no edit."""
    crates = {}
    for _, functions, cell in table:
        key = key_of(cell)
        if key in crates and key:
            yield f"two rows have the key {key}"
        crates[key] = {crate for _, crate in GROUP.findall(functions)}
    for edit, promise, _ in found:
        if promise is None or promise not in crates:
            yield f"{edit.relative_to(TOP)}: its first line names no promise of {PAGE.name}"
        elif edit.parent.parent.name not in crates[promise]:
            yield f"{edit.relative_to(TOP)}: {promise} is no promise of its crate"
    for key in crates.keys() - {promise for _, promise, _ in found} - {None}:
        yield f"no edit names the promise {key}"


def untried(table, found):
    """The promises that have edits in crates that are not dear, of which the gate tries none."""
    in_gate = {promise for _, promise, tried in found if tried}
    cheap = {promise for edit, promise, _ in found if edit.parent.parent.name not in DEAR}
    whole = []
    for promise, _, cell in table:
        if not promise.startswith(PART):
            whole.append((promise, set()))
        whole[-1][1].add(key_of(cell))
    return [promise for promise, keys in whole if keys & cheap and not keys & in_gate]


def too_dear(found):
    """The dear crates of which the gate tries more than one edit."""
    tried = [edit.parent.parent.name for edit, _, in_gate in found if in_gate]
    return sorted(crate for crate in DEAR if tried.count(crate) > 1)


def write():
    """Writes the edits that the tree has into the page."""
    PAGE.write_text(written(PAGE.read_text(), list(all_edits())))


def check():
    """How many edits there are, and what is wrong with the page."""
    found, text = list(all_edits()), PAGE.read_text()
    table = list(rows(text))
    wrong = [line for _, functions, _ in table for line in missing_words(functions)]
    wrong += strangers(found, table)
    wrong += [f"no edit in the gate: {promise}" for promise in untried(table, found)]
    wrong += [f"{crate} is dear, and has more than one edit in the gate" for crate in too_dear(found)]
    if text != written(text, found):
        wrong.append(f"{PAGE.name} lists other edits: tools/promises.py --write")
    tried = sum(in_gate for _, _, in_gate in found)
    return f"{tried} edits in the gate, {len(found) - tried} beside it", wrong
