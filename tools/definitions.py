#!/usr/bin/env python3
"""Counts what a reader has to believe for a promise: the definitions that its clauses name, and all that these name in turn, in all crates.

    python3 tools/definitions.py [--list] CRATE::FUNCTION[.CLAUSE] ..
    python3 tools/definitions.py --write

A function is a public one, as `world::World::step`; without a clause all of its clauses count. A definition is one of specs/, or a type of the code that
clauses see: its variants or fields, and if it has a model, what this makes of the fields that it names. A line counts if it holds text that is neither a
comment nor an import. What std and the kit define does not count, nor the invariant of a type, which is proved.

In docs/HEADLINE.md and docs/PROMISES.md the names of laws and clauses are followed by their crate, if it is not mc_laws or mc_parts, and by the figures of
all of them together: "`lines_join` (`script_text`) on 9 definitions, 20 lines". With --write it mends the figures. tools/check looks whether they are true,
whether each law of a table has some, and whether definitions are read whole.
"""
import argparse
import re

from repository import TOP, libraries, sources

PAGES = [TOP / "docs" / name for name in ("HEADLINE.md", "PROMISES.md")]
CRATES = libraries()
# What stands before the name of a type of the code, which is its own module, so that none of specs/ is taken for it.
CODE = "::"
COMMENT = re.compile(r"^ *(?:--|//|#!?\[).*\n", re.M)
HEAD = re.compile(r"^ *(?:pub record|pub data|abbrev(?: pub)?|unfoldable(?: pub)?) (\S+)", re.M)
USE = re.compile(r"^ *(?:pub |ghost )?use Rattle\.(\w+)\.specs\.([\w.]+?)(?:\.\{([^}]*)\}| as (\w+))?;?$", re.M)
CODE_USE = re.compile(r"^(?:pub(?:\(crate\))? )?use ([\w:]+?)(?:::\{([^}]*)\})?;$", re.M)
TYPE = re.compile(r"^(?:pub(?:\(crate\))? )?(?:struct|enum|type) (\w+)[^;{]*(?:;|\{.*?^\}|\(.*?\);)", re.M | re.S)
FIELD = re.compile(r" +(?:pub(?:\(crate\))? )?(\w+): ")
MODEL = re.compile(r"^impl\b[^\n]*\bModel for (\w+).*?^\}", re.M | re.S)
VIEW = re.compile(r"^ *ghost (?:Value|view) = .*?;$", re.M | re.S)
LAW = re.compile(r"^pub fn (\w+)[^(\n]*\(\)\n(?: .*\n)*\{\}", re.M)
# A word, with the one behind its dot; but no field behind a dot, no label, and no variable where it is bound.
WORD = re.compile(r"(?<![\w.])([^\W\d]\w*)(?!\w| [:=] )(?:(?:\.|::)(\w+))?")
OPERATOR = re.compile(r"[^\s\w(){}\[\],;.◌]+")
FIGURE = re.compile(r"((?:`[\w:.]+`(?:, | and )?)+)((?: \(`\w+`\))?(?: rests?)? on )[\d,]+ definitions, [\d,]+ lines")
# What some promises rest on, by the words that must be counted of each definition.
WANTED = {
    "mc_laws::headline": {
        "Packet": "Prepare Promise Propose Voted Refused Ask Tell",
        "MayPropose": "proposer incarnation once justified free",
        "NeedsAtLeast": "Receives Proposes Concludes",
        "IsOfHighest": "Reports Some",
    },
    "world_runs::run": {"Step": "Deliver Crash Restart", "Given": "replies granted", "Scene": "members packets fresh", "Chain": "Value view"},
    "world_fates::one_fate_is_printed_by_all_nodes": {"read_pdu": "", "Pdu": "body", "stepped": ""},
}


def named(group):
    """The names in an import, each with the one that it has there."""
    for word in filter(None, (part.strip() for part in group.split(","))):
        first, _, other = word.partition(" as ")
        yield (other or first).strip("◌"), first.strip("◌")


def module_of(crate, path):
    """What a path of an import stands for: a module of specs/, or a type of the code."""
    parts = path.split(".")
    if parts[0] == "declared":
        return crate, CODE + [part for part in parts if not part.startswith("The")][-1]
    return crate, path.removesuffix(".TheVariants")


def seen_by(view, declared):
    """A type as its model sees it: without the fields that the view does not name. If it names none, it takes all."""
    seen = set(re.findall(r"\.(\w+)", view))
    return "\n".join(line for line in declared.split("\n") if not seen or not (field := FIELD.match(line)) or field[1] in seen)


class Source:
    """A file: its definitions, each with the lines that count; and of what module each name in it is, and by what name there."""

    def __init__(self, crate, file):
        self.crate, self.file = crate, file
        self.module = ".".join(file.relative_to(TOP / "crates" / crate).with_suffix("").parts[1:])
        self.definitions, self.constructors, self.names, self.modules = {}, {}, {}, {}
        text = COMMENT.sub("", file.read_text())
        for library, path, group, other in USE.findall(text):
            module = module_of(library, path)
            if group:
                self.names |= {here: (module, there) for here, there in named(group)}
            else:
                self.modules[other or path.split(".")[-1]] = module
        self.text = USE.sub("", text)
        self.read_code() if file.suffix == ".rt" else self.read_definitions()

    def read_definitions(self):
        for block in re.split(r"\n\s*\n", self.text):
            if head := HEAD.search(block):
                self.add((self.crate, self.module), head[1].strip("◌"), block[head.start():])
                for constructor in re.findall(r"^ +(\w+) :", block, re.M) if "pub data" in head[0] else []:
                    self.constructors[(self.crate, self.module), constructor] = head[1]

    def read_code(self):
        for path, group in CODE_USE.findall(self.text):
            parts = path.split("::")
            crate = parts[0] if parts[0] in CRATES else self.crate
            self.names |= {here: ((crate, CODE + there), there) for here, there in named(group or parts[-1])}
        views = {model[1]: "\n".join(VIEW.findall(model[0])) for model in MODEL.finditer(self.text)}
        for declared in TYPE.finditer(self.text):
            view = views.get(declared[1], "")
            self.add((self.crate, CODE + declared[1]), declared[1], f"{seen_by(view, declared[0])}\n{view}")

    def add(self, module, name, text):
        self.definitions[module, name] = [line for line in text.split("\n") if line.strip()]
        self.names[name] = module, name

    def named_in(self, text):
        """The names in a text, each of its module."""
        for word, behind in WORD.findall(text):
            if word in self.modules and behind:
                yield self.modules[word], behind
            elif word in self.names:
                yield self.names[word]
            elif behind and word in CRATES:
                yield (word, CODE + behind), behind
        yield from (self.names[sign] for sign in OPERATOR.findall(text) if sign in self.names)


class Definitions:
    """The definitions of all crates, and which of them stand behind which."""

    def __init__(self):
        self.sources = {crate: [Source(crate, file) for file in sources(crate, ["src", "specs"])] for crate in CRATES}
        every = [source for found in self.sources.values() for source in found]
        self.home = {key: source for source in every for key in source.definitions}
        self.constructors = {key: name for source in every for key, name in source.constructors.items()}
        self.files = {(source.crate, source.module): source for source in every}
        self.firsts = {crate: [source for source in found if source.file.name in ("lib.rt", "Lib.antt")] for crate, found in self.sources.items()}
        # What each definition names, once somebody has asked for it.
        self.direct = {}
        self.laws = {crate: {name for source in found for name in LAW.findall(source.text)} for crate, found in self.sources.items()}

    def resolve(self, module, name, tries=4):
        """The definition that a name in a module stands for, also if the module has it from another."""
        crate, path = module
        if path.startswith(CODE):
            name = path.removeprefix(CODE)
        if (module, name) in self.home:
            return module, name
        if (module, name) in self.constructors:
            return module, self.constructors[module, name]
        further = next(self.further(crate, path, name), None)
        return self.resolve(*further, tries - 1) if further and tries else None

    def further(self, crate, path, name):
        """From where a module has a name that it does not define: by an import of its own, or by one of the crate's first file."""
        if (crate, path) in self.files and name in self.files[crate, path].names:
            yield self.files[crate, path].names[name]
        for first in self.firsts.get(crate, []):
            if path in first.modules:
                yield first.modules[path], name
            if path.startswith(CODE) and name in first.names:
                yield first.names[name]

    def named_by(self, source, text):
        """The definitions that a text names."""
        return [key for name in source.named_in(text) if (key := self.resolve(*name))]

    def beneath(self, key):
        """The definitions that one names."""
        if key not in self.direct:
            self.direct[key] = self.named_by(self.home[key], "\n".join(self.home[key].definitions[key]))
        return self.direct[key]

    def behind(self, promises):
        """The definitions behind functions and clauses, each with its lines."""
        ahead, stands = [key for promise in promises for key in self.named_by(*self.clauses(promise))], {}
        while ahead:
            key = ahead.pop()
            if key not in stands:
                stands[key] = self.home[key].definitions[key]
                ahead += self.beneath(key)
        return stands

    def clauses(self, promise):
        """The file of a public function, and its head: its parameters and clauses, or one clause with the types of what it names."""
        crate, *path = promise.split("::")
        function, _, clause = path.pop().partition(".")
        within = rf"^impl[^\n]*\b{path[0]}\b[^\n]*\{{\n(?:(?!^\}}).)*?" if path else ""
        head = re.compile(rf"{within}^ *(pub fn {function}\b.*?)^ *\{{", re.M | re.S)
        for source in self.sources.get(crate, []):
            if source.file.suffix == ".rt" and (found := head.search(source.text)):
                return source, one_clause(found[1], clause) if clause else found[1] + " ".join(path)
        raise SystemExit(f"there is no public function {promise}")

    def figures(self, promises):
        stands = self.behind(promises)
        return f"{len(stands)} definitions, {sum(map(len, stands.values())):,} lines"


def one_clause(head, name):
    """A clause of a function's head, with the types of the parameters and of the result that it names."""
    signature, *clauses = re.split(r"^ *(?=ensures\b|requires\b)", head, flags=re.M)
    clause = next((text for text in clauses if re.match(rf"\w+ {name} ", text)), None)
    if clause is None:
        raise SystemExit(f"there is no clause {name}")
    parameters, _, result = signature.partition("->")
    types = [kind for word, kind in [*re.findall(r"(\w+): ([^,\n]*)", parameters), ("result", result)] if re.search(rf"\b{word}\b", clause)]
    return "\n".join([clause, *types])


def with_figures(definitions, text):
    """A page with the true figures."""

    def mended(found):
        words = re.findall(r"`([\w:.]+)`", found[1])
        crate = re.search(r"\(`(\w+)`\)", found[2])
        crate = crate[1] if crate else "mc_parts" if words[0] in definitions.laws["mc_parts"] else "mc_laws"
        return found[1] + found[2] + definitions.figures([f"{crate}::{word}" for word in words])

    return FIGURE.sub(mended, text)


def wrong_in(definitions, page):
    """The lines of a page whose figures are not true, and the laws in its tables that have none."""
    text = page.read_text()
    true = with_figures(definitions, text)
    yield from (f"{page.name} should say: {new}" for old, new in zip(text.splitlines(), true.splitlines()) if old != new)
    with_some = {word for found in FIGURE.finditer(text) for word in re.findall(r"\w+", found[1])}
    laws = set().union(*definitions.laws.values())
    for line in text.splitlines():
        if line.startswith("| "):
            yield from (f"{page.name} has no figures of {word}" for word in re.findall(r"`(\w+)`", line.split("|")[2]) if word in laws - with_some)


def misread(definitions):
    """The words that are not counted of what promises rest on."""
    for promise, names in WANTED.items():
        stands = definitions.behind([promise])
        for name, words in names.items():
            counted = {word for (_, other), lines in stands.items() if other == name for word in re.findall(r"\w+", " ".join(lines))}
            yield from (f"{name} behind {promise} lacks {word}" for word in [name, *words.split()] if word not in counted)


def tell(definitions, promise, listed):
    print(f"{promise}: {definitions.figures([promise])}")
    by_file = {}
    for key, lines in sorted(definitions.behind([promise]).items()) if listed else []:
        by_file.setdefault(definitions.home[key].file.relative_to(TOP / "crates"), []).append(f"{key[1]} {len(lines)}")
    print(*(f"  {file}: {', '.join(by_file[file])}" for file in sorted(by_file)), sep="\n", end="\n" if by_file else "")


def check():
    """How many figures the pages have, and which of them are wrong."""
    definitions = Definitions()
    wrong = [*misread(definitions), *(line for page in PAGES for line in wrong_in(definitions, page))]
    return f"{sum(len(FIGURE.findall(page.read_text())) for page in PAGES)} figures", wrong


def main():
    reader = argparse.ArgumentParser(description=__doc__, formatter_class=argparse.RawDescriptionHelpFormatter)
    reader.add_argument("promises", metavar="CRATE::FUNCTION[.CLAUSE]", nargs="*")
    reader.add_argument("--list", action="store_true", help="name the definitions, by their files")
    reader.add_argument("--write", action="store_true", help="mend the figures of the pages")
    given = reader.parse_args()
    if not (given.promises or given.write):
        reader.error("name a function, or give --write")
    definitions = Definitions()
    for page in PAGES if given.write else []:
        page.write_text(with_figures(definitions, page.read_text()))
    for promise in given.promises:
        tell(definitions, promise, given.list)


if __name__ == "__main__":
    main()
