"""The crates of the repository, their modules and their laws, for `pages`."""
import re
from dataclasses import dataclass
from functools import cache

from specs import CRATES, Imports, words_of

# A function that takes nothing and does nothing: its contract is the law.
LAW = re.compile(r"^((?:///.*\n)*)(?:#\[.*\]\n)*pub fn (\w+)\(\)\n((?: +.*\n)+)\{\}$", re.MULTILINE)
CLAUSE = re.compile(r"^    ensures (\w* ?)\{ (.*(?:\n     +.*)*) \}$", re.MULTILINE)
STARTS_CLAUSE = re.compile(r"\n +(?:ensures|requires) (\w*)")


@dataclass(frozen=True)
class Module:
    crate: str
    name: str
    path: object

    @property
    def place(self):
        return self.path.relative_to(CRATES.parent)

    @property
    def text(self):
        return self.path.read_text()

    @property
    def head(self):
        """The text at its top, in the lines that begin with `//!`."""
        lines = re.match(r"(?://!.*\n)*", self.text)[0].splitlines()
        return "\n".join(line.removeprefix("//!").removeprefix(" ") for line in lines)

    @property
    def sentence(self):
        """The first sentence of that text."""
        return re.match(r"(?:.*?[^.]\.(?= |$))|.*", " ".join(self.head.partition("\n\n")[0].split()))[0]


@dataclass(frozen=True)
class Law:
    module: Module
    name: str
    sentences: str
    clauses: tuple

    @property
    def place(self):
        return f"{self.module.place}: {self.name}"


@cache
def crates():
    """The libraries that each crate stands on, in the order of crates.txt."""
    lines = (CRATES.parent / "crates.txt").read_text().split("\n")
    named = (line.partition("#")[0].partition(":") for line in lines)
    return {name.split()[0]: used.split() for name, _, used in named if name.strip()}


@cache
def below(crate):
    """All libraries that a crate stands on, and those that they stand on."""
    used = crates().get(crate, [])
    return set(used).union(*map(below, used))


def root_of(crate):
    sources = CRATES / crate / "src"
    path = next(path for name in ("lib.rt", "main.rt") if (path := sources / name).exists())
    return Module(crate, path.stem, path)


def modules_of(crate):
    """Its modules by name, except for its root."""
    root = root_of(crate)
    paths = sorted(root.path.parent.rglob("*.rt"))
    return [Module(crate, str(path.relative_to(root.path.parent).with_suffix("")), path) for path in paths if path != root.path]


def laws_in(module):
    """The laws of a module, in their order."""
    for above, name, clauses in LAW.findall(module.text):
        sentences = " ".join(line.removeprefix("///").strip() for line in above.splitlines())
        yield Law(module, name, sentences, tuple((clause.strip(), text) for clause, text in CLAUSE.findall(clauses)))


def cited_in(module, start, clause=None):
    """The definitions that a contract cites: that of the item that begins like this, in one clause or in all."""
    text = re.sub(r"^ *//.*\n", "", module.text, flags=re.MULTILINE)
    item = text[text.index(start):]
    item = item[:re.search(r"\n[{}]", item).start()]
    starts = [*STARTS_CLAUSE.finditer(item)]
    ends = [match.start() for match in starts[1:]] + [len(item)]
    clauses = [item[match.end():end] for match, end in zip(starts, ends) if clause in (None, match[1])]
    return set(Imports(text).named(set().union(*map(words_of, clauses)))) - {None}
