"""The definitions in crates/*/specs, for `pages`: the sentence above each, its sources, and what it names.

A definition is a paragraph. The comment right above it is its sentence, and may end with its sources in parentheses,
as `(guide, Groups)` or `(tiles 4.1; guide, Message Structure)`. The comment at the top of a file says what is in it.
A definition names each definition whose name is in it, even where that is the name of a variable there.
"""
import re
from dataclasses import dataclass, field
from functools import cache
from pathlib import Path

CRATES = Path(__file__).resolve().parent.parent / "crates"

# Specs that the toolchain makes from the code: types, traits, constants and their contracts.
MADE = {"declared", "contracts", "TheConstants"}

# The sections that a source can name, of the Vector Tile Specification 2.1 and of the Protocol Buffers encoding guide.
TILES = {"4.1", "4.2", "4.3", "4.3.1", "4.3.2", "4.3.3", "4.3.4", "4.4"}
GUIDE = {
    "Base 128 Varints", "Message Structure", "Signed Integers", "Length-Delimited Records", "Repeated Elements",
    "Last One Wins", "Packed Repeated Fields", "Groups",
}

COMMENT = re.compile(r"\s*-- ?(.*)")

# What can come right before a definition, and what of that sets the lines before it apart.
BESIDE = re.compile(r"\s*(?:--|module _|infix)")
APART = re.compile(r"\s*(?:-- ----|module _)")

USE = re.compile(r"(?:(pub|ghost) )?use Rattle\.(\w+)\.specs((?:\.\w+)+)(?:\.\{([^}]*)\}| as (\w+))?;?$", re.MULTILINE)
BEGINS = re.compile(r" *(?:abbrev|unfoldable|pub record|pub data) ")
DECLARED = re.compile(r"(?!use|pub use|pub mod) *(?:abbrev |unfoldable )?(?:pub )?(?:(record|data) )?([^\W\d]\w*|◌\S+◌)(?= )")
PLAIN = re.compile(r" *pub (?:record|data) ")
CONSTRUCTOR = re.compile(r"^ +([^\W\d]\w*) : ", re.MULTILINE)
EXPLICIT = re.compile(r"\(([^:()]+) : ")
VARIABLE = re.compile(r"(?!zero$|true$|false$)[a-z]\w*")
NAMES = re.compile(r"(?<![\w.])[^\W\d]\w*(?:\.[^\W\d]\w*)*")
SOURCES = re.compile(r" \(((?:tiles|guide,) [^()]*)\)$")


@dataclass(eq=False)
class Definition:
    file: "File"
    line: int
    name: str
    sentence: str
    sources: list
    text: str
    parameters: list = field(default_factory=list)
    constructors: list = field(default_factory=list)

    @property
    def place(self):
        return f"{self.file.place}:{self.line}"


@dataclass(eq=False)
class File:
    crate: str
    name: str
    head: str
    imports: "Imports"
    definitions: list = field(default_factory=list)

    @property
    def path(self):
        return CRATES / self.crate / "specs" / f"{self.name}.antt"

    @property
    def place(self):
        return self.path.relative_to(CRATES.parent)

    @property
    def unseen(self):
        """The lines that begin a definition within another one."""
        seen = {definition.line for definition in self.definitions}
        lines = self.path.read_text().split("\n")
        return [number for number, line in enumerate(lines, 1) if BEGINS.match(line) and number not in seen]


class Imports:
    """What a text imports of the specs of this repository."""

    def __init__(self, text):
        self.names, self.files, self.passed_on = {}, {}, {}
        for keyword, crate, path, names, alias in USE.findall(text):
            file = path[1:]
            if not (CRATES / crate).is_dir():
                continue
            for name in names.split(", ") if names else []:
                name, _, local = name.partition(" as ")
                self.names[local or name] = crate, file, name
            if alias:
                self.files[alias] = crate, file
            if keyword == "pub" and not names:
                self.passed_on[file] = crate

    def named(self, words):
        """The definitions that the words name."""
        for word in words:
            first, _, second = word.partition(".")
            if first in self.names:
                yield find(*self.names[first])
            elif first in self.files and second:
                yield find(*self.files[first], second.partition(".")[0])


# ---- files and definitions

def paragraphs(text):
    """Each paragraph, by the number of its first line and its lines."""
    lines = text.split("\n")
    blanks = [-1, *(i for i, line in enumerate(lines) if not line.strip()), len(lines)]
    for before, after in zip(blanks, blanks[1:]):
        if after - before > 1:
            yield before + 2, lines[before + 1:after]


def comment_of(lines):
    return " ".join(match[1] for line in lines if (match := COMMENT.match(line)))


def sentence_of(comment):
    """A sentence and its sources."""
    match = SOURCES.search(comment)
    return (comment[:match.start()], match[1].split("; ")) if match else (comment, [])


def arguments(left):
    """What follows the name on the left of an equation, one by one, except for what is in braces."""
    found, depth = [], 0
    for word in left.split()[1:]:
        if depth:
            found[-1] += " " + word
        else:
            found.append(word)
        depth += word.count("(") - word.count(")")
    return [word for word in found if not word.startswith("{")]


def is_source(text):
    """Whether this names sections of a standard."""
    standard, _, section = text.partition(" ")
    return section in GUIDE if standard == "guide," else standard == "tiles" and set(section.split(", ")) <= TILES


def parameters_of(name, code):
    """The names of what a definition takes: `_` if an argument has none in any equation."""
    if PLAIN.match(code[0]):
        return [word for names in EXPLICIT.findall(code[0].rpartition(" : ")[0] + " : ") for word in names.split()]
    lefts = [arguments(line.partition(" =")[0]) for line in code if line.split()[0] == name and " =" in line]
    names = [next(filter(VARIABLE.fullmatch, column), "_") for column in zip(*lefts)]
    return names if set(names) - {"_"} else []


def definition_in(file, first, lines):
    """The definition that a paragraph is, or none."""
    at = next((i for i, line in enumerate(lines) if not BESIDE.match(line)), len(lines))
    match = DECLARED.match(lines[at]) if at < len(lines) else None
    if not match:
        return None
    apart = max((i + 1 for i in range(at) if APART.match(lines[i])), default=0)
    sentence, sources = sentence_of(comment_of(lines[apart:at]))
    code = lines[at:]
    constructors = CONSTRUCTOR.findall("\n".join(code[1:])) if match[1] == "data" else []
    return Definition(file, first + at, match[2], sentence, sources, "\n".join(code), parameters_of(match[2], code), constructors)


@cache
def file_at(crate, name):
    """A file of specs, or none if the crate has no such file of its own."""
    path = CRATES / crate / "specs" / f"{name}.antt"
    if not path.exists():
        return None
    text = path.read_text()
    head = re.match(r"(?:--.*\n)*", text)[0].splitlines()
    file = File(crate, name, comment_of(head), Imports(text))
    file.definitions = [found for first, lines in paragraphs(text) if (found := definition_in(file, first, lines))]
    return file


def files_of(crate):
    """The files of specs of a crate, in the order in which it names them."""
    library = CRATES / crate / "specs" / "Lib.antt"
    names = re.findall(r"^pub mod (\w+)$", library.read_text(), re.MULTILINE) if library.exists() else []
    return [file_at(crate, name) for name in names]


# ---- what a definition names

def find(crate, file, name):
    """The definition of this name that a file of specs has or re-exports, or none if it is made from the code."""
    if file.split(".")[0] in MADE:
        return None
    at = file_at(crate, file)
    if at is None:
        return find(file_at(crate, "Lib").imports.passed_on[file], file, name)
    own = next((d for d in at.definitions if name == d.name or name in d.constructors), None)
    if own is None and name not in at.imports.names:
        raise SystemExit(f"{at.place}: it has no {name}")
    return own or find(*at.imports.names[name])


def words_of(text):
    """The names in a text, those after a dot with what comes before it, and its operators: `do` is written with one."""
    code = "\n".join(line for line in text.split("\n") if not COMMENT.match(line))
    words = {*NAMES.findall(code), *(f"◌{word}◌" for word in code.split())}
    return words | {"◌>>=◌"} if "do" in words else words


@cache
def named_by(definition):
    """The definitions that a definition names."""
    words = words_of(definition.text)
    file = definition.file
    own = {d for d in file.definitions if words & {d.name, *d.constructors}}
    return (own | set(file.imports.named(words))) - {definition, None}


def closure(definitions):
    """These definitions, what they name, what those name, and so on."""
    found, left = set(), set(definitions)
    while left:
        found |= left
        left = {named for definition in left for named in named_by(definition)} - found
    return found
