"""Lemmas that nothing names, and lemmas that say what another says, in another file or in the kit's std.

It reads text. Answers and invariants have the names of their goals, and so are left out. Two lemmas say the same if they differ in the names of what they are
bound to and in what they leave implicit alone; of those inside others only such count as say it of std's words.
"""
import collections
import functools
import pathlib
import re

from repository import TOP, libraries, sources

ROOT = TOP / "crates"
STD = pathlib.Path("/opt/rattle/rattle/std")
HEAD = re.compile(r"( *)(pub )?(?:abbrev )?(?:unfoldable )?(pub )?([^\s:(){}=]+) : (.*)")
WORD = re.compile(r"[^\s(){}.,;]+")
TOKEN = re.compile(r"[^\s(){}.,;]+|[(){}.,;]")
BINDER = re.compile(r"[({]\s*([^(){}:→]+?)\s*:\s")
SHORTEST = 30
# Files whose names are those of goals.
GOALS = ("Answers", "Invariants", "Measures")


def indent(line):
    return len(line) - len(line.lstrip())


@functools.cache
def text_of(path):
    text = path.read_text()
    return text.replace("::", " ") if path.suffix == ".rt" else re.sub(r"--.*", "", text)


class Lemma:
    """A statement with a name: where it stands, whether other files may name it, what it says, and its own lines."""

    def __init__(self, path, lines, place):
        space, first, second, self.name, says = HEAD.fullmatch(lines[place]).groups()
        self.path, self.line, self.depth, self.public = path, place + 1, len(space), bool(first or second)
        self.proved = "abbrev" not in lines[place].split()[:2]
        end = place + 1
        while end < len(lines) and indent(lines[end]) > self.depth:
            end += 1
        self.says = " ".join([says, *(line.strip() for line in lines[place + 1:end])])
        self.body = lines[place:end + self.rest(lines[end:])]

    def rest(self, lines):
        """How many of these lines are its own still: deeper ones, its further clauses, and what closes them."""
        count = 0
        for place, line in enumerate(lines):
            if not line.strip():
                continue
            clause = indent(line) == self.depth and (line.startswith(" " * self.depth + self.name + " ") or line.strip() in ("}", "]", ")"))
            if indent(line) <= self.depth and not clause:
                break
            count = place + 1
        return count

    def is_field(self, lines):
        """Whether it is a part of a record or a constructor, and so no lemma."""
        above = self.line - 1
        while self.depth and above >= 0 and (not lines[above].strip() or indent(lines[above]) >= self.depth):
            above -= 1
        return self.depth > 0 and bool({"record", "data"} & set(lines[above].split()[:3]))

    def __str__(self):
        return f"{self.path.relative_to(ROOT if self.path.is_relative_to(ROOT) else STD)}:{self.line} {self.name}"


def lemmas_of(path):
    lines = text_of(path).splitlines()
    for place, line in enumerate(lines):
        if HEAD.fullmatch(line):
            lemma = Lemma(path, lines, place)
            if not lemma.is_field(lines):
                yield lemma


def homes_of(path):
    """Of each word that a file defines, or imports from elsewhere than the kit, the module."""
    text = text_of(path)
    homes = {name: path for name in re.findall(r"^ *(?:pub )?(?:abbrev |unfoldable |record |data )*(?:pub )?(?:record |data )?([^\s:(){}=]+) [:(]", text, re.M)}
    for module, names in re.findall(r"^use ([^\s{]+)\.\{([^}]*)\}", text, re.M):
        if not module.startswith("Rattle.std"):
            homes |= {name.strip(): module for name in names.split(",")}
    return homes


def meaning(says, homes):
    """What it says, with its binders numbered in their order, each word with its module, and without what is implicit."""
    bound = {name for names in BINDER.findall(says) for name in names.split()}
    shown, depth = [], 0
    for token in TOKEN.findall(says):
        depth += (token == "{") - (token == "}")
        if depth == 0 and token != "}":
            shown.append(token)
    numbers = {}
    text = " ".join(numbers.setdefault(token, f"v{len(numbers)}") if token in bound else f"{token}{homes.get(token, '')}" for token in shown)
    apart = re.sub(r"\( ((?:v\d+ )+): ([^()]*) \)", lambda m: " ".join(f"( {name} : {m[2]} )" for name in m[1].split()), text)
    return re.sub(r"\) → \(", ") (", apart)


def unnamed(lemmas):
    """Lemmas whose name stands nowhere but in their own lines."""
    names, counts, everywhere = {lemma.name for lemma in lemmas}, {}, collections.Counter()
    for path in (path for crate in libraries() for path in sources(crate)):
        counts[path] = collections.Counter(word for word in WORD.findall(text_of(path)) if word in names)
        everywhere.update(counts[path])
    for lemma in lemmas:
        own = WORD.findall("\n".join(lemma.body)).count(lemma.name)
        if counts[lemma.path][lemma.name] <= own and (not lemma.public or everywhere[lemma.name] <= own):
            yield lemma


def twins(lemmas):
    """Groups of lemmas of several files that say the same, each with those of std before it."""
    groups = collections.defaultdict(list)
    homes = {path: homes_of(path) for path in {lemma.path for lemma in lemmas}}
    for lemma in lemmas:
        if lemma.proved and not lemma.says.endswith("Type 0"):
            groups[meaning(lemma.says, homes[lemma.path])].append(lemma)
    known = collections.defaultdict(list)
    for path in [*STD.glob("lemmas/**/*.md"), *STD.glob("proofs/**/*.antt")]:
        for lemma in lemmas_of(path):
            if lemma.public:
                known[meaning(lemma.says, {})].append(lemma)
    for says, group in groups.items():
        outer = [lemma for lemma in group if lemma.depth == 0]
        if len(says) > SHORTEST and "≡" in says and says in known:
            yield known[says][:1] + group
        elif len(says) > SHORTEST and len({lemma.path for lemma in outer}) > 1:
            yield outer


def check():
    """How many lemmas there are, and what is wrong with them."""
    files = [path for crate in libraries() for path in sources(crate, ["proofs"]) if path.suffix == ".antt"]
    lemmas = [lemma for path in files if path.stem not in GOALS for lemma in lemmas_of(path)]
    wrong = [f"nothing names {lemma}" for lemma in unnamed(lemmas)]
    wrong += ["the same: " + ", ".join(map(str, group)) for group in twins(lemmas)]
    return f"{len(lemmas):,} lemmas", wrong
