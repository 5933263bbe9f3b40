"""What the program offers to its users: options, requests, refusals, statuses and its version, as the code has them; and
the pages that have to say the same.
"""
import re
from pathlib import Path

TOP = Path(__file__).resolve().parent.parent

OPTIONS = "crates/tile_command_line/src/command_line.rt"
REQUESTS = ["crates/tile_script/src/requests.rt", "crates/tile_script/src/commands.rt"]
HELP = "crates/tile_command_line/src/help.rt"
REFUSALS = "crates/tile_course/src/refused.rt"
OUTCOMES = "crates/tile_course/src/outcome.rt"
FORMATS = "docs/FORMATS.md"
README = "README.md"
PROGRAM = "man/tileshell.1"
SCRIPT = "man/tileshell-script.5"
TOOL = "tools/edit-tiles"
OF_TOOL = "man/edit-tiles.1"
WORDS = "completions/requests.txt"

# How each shell's completion writes an option, one that takes a value, and one whose value is a file.
COMPLETIONS = {
    "completions/tileshell.bash": (r"(?<=[ (])--([a-z]+)(?=[ ;])", r"\$before [!=]= --([a-z]+)", r"\$before != --([a-z]+)"),
    "completions/tileshell.zsh": (r"--([a-z]+)", r"--([a-z]+)=", r"--([a-z]+)=\[.*\]:.*:_files'"),
    "completions/tileshell.fish": (r"-l ([a-z]+)", r"-l ([a-z]+) -[rx] ", r"-l ([a-z]+) -r -F "),
}


def read(place):
    return (TOP / place).read_text()


# ---- the code

def version():
    return re.search(r'^const VERSION: &str = "(.*)";$', read(OPTIONS), re.MULTILINE)[1]


def options():
    """The long options, with the two that are always there."""
    return {*re.findall(r'\.long\("([\w-]+)"\)', read(OPTIONS)), "help", "version"}


def options_of_tool():
    """The long options of edit-tiles, with the one that is always there."""
    return {*re.findall(r'\.add_argument\("--([\w-]+)"', read(TOOL)), "help"}


def options_with(name):
    """The long options that take a value whose name in the help is like this."""
    return set(re.findall(rf'\.long\("([\w-]+)"\)\s*\.value_name\("{name}"\)', read(OPTIONS)))


def requests():
    """The words that a request begins with."""
    return {word for place in REQUESTS for word in re.findall(r'is\(name, b"([\w-]+)"\)', read(place))}


def refusals():
    """The number and the name of each refusal of a line."""
    return {f"{number} {name}" for number, name in re.findall(r'=> \((\d+), "(\w+)"\)', read(REFUSALS))}


def tile_refusals():
    """The number and the name of each refusal of a tile."""
    return set(re.findall(r'#\[error\("(\d+ \w+)', read(OUTCOMES)))


# ---- pages

def table(place, heads):
    """The cells of the rows of each table whose head begins like this."""
    parts = re.findall(rf"^\| {re.escape(heads)}.*\n\|[-|]+\n((?:\|.*\n)+)", read(place), re.MULTILINE)
    return [[cell.strip() for cell in row.strip("|").split("|")] for part in parts for row in part.splitlines()]


def forms_in(place, *heads):
    """The requests with their arguments, as the tables with these heads have them."""
    return {form for head in heads for row in table(place, head) for form in re.findall(r"`([^`]+)`", row[0])}


def section(place, name):
    """A section of a manual page, with what it writes differently for the formatter."""
    text = re.search(rf"^\.SH {name}\n(.*?)(?=^\.SH )", read(place), re.MULTILINE | re.DOTALL)[1]
    return text.replace(r"\-", "-")


def heads_in(place, name):
    """What is at the head of each paragraph of a section, if it has some text."""
    lines = re.findall(r"^\.TP\n\.BI? (.*)\n(?!\.(?:TP|S[HS])\b)", section(place, name), re.MULTILINE)
    return {line.replace('"', "").replace("  ", " ") for line in lines}


# ---- what differs

def forms_in_help():
    """The requests of the help, each on a line with what it does."""
    requests_alone = read(HELP).partition("Requests")[2].partition("\n\n")[0]
    return set(re.findall(r"^  (\S+(?: \S+)*)  +\S", requests_alone, re.MULTILINE))


def differences(place, what, wanted, found):
    yield from (f"{place}: it lacks the {what} {each}" for each in sorted(wanted - found))
    yield from (f"{place}: there is no {what} {each}" for each in sorted(found - wanted))


def request_faults():
    forms = forms_in(FORMATS, "Command | Meaning |", "Request | Meaning | Refusals")
    yield from differences(FORMATS, "request", requests(), {form.split()[0] for form in forms})
    yield from differences(README, "request", forms, forms_in(README, "Request | Meaning |"))
    yield from differences(SCRIPT, "request", forms, heads_in(SCRIPT, "REQUESTS"))
    yield from differences(HELP, "request", forms, forms_in_help())
    yield from differences(WORDS, "request", requests(), set(read(WORDS).split()))


def refusal_faults():
    yield from differences(FORMATS, "refusal", refusals() | tile_refusals(), {" ".join(row[:2]) for row in table(FORMATS, "N | NAME |")})
    yield from differences(SCRIPT, "refusal", refusals(), heads_in(SCRIPT, "REFUSALS"))
    yield from differences(PROGRAM, "refusal", tile_refusals(), set(re.findall(r"tile refused: (\d+ \w+)", read(PROGRAM))))


def option_faults():
    for place, wanted in {PROGRAM: options(), OF_TOOL: options_of_tool()}.items():
        yield from differences(place, "option", wanted, set(re.findall(r"--([a-z]+)", section(place, "OPTIONS"))))
    for place, patterns in COMPLETIONS.items():
        wanted = {"option": options(), "option with a value": options_with(r"\w+"), "option with a file": options_with("FILE")}
        for (what, there), pattern in zip(wanted.items(), patterns):
            yield from differences(place, what, there, set(re.findall(pattern, read(place))))
    statuses = [{row[0] for row in table(place, "Status |")} for place in (FORMATS, README)]
    yield from differences(README, "status", *statuses)
    yield from differences(PROGRAM, "status", statuses[0], heads_in(PROGRAM, "EXIT STATUS"))
    yield from differences(HELP, "status", statuses[0], set(re.findall(r"^  (\d)  ", read(HELP), re.MULTILINE)))


# Where a version is given, with what is around it.
VERSIONS = {
    FORMATS: r"the version is `tileshell (.*?)`",
    PROGRAM: r'^\.TH \S+ \S+ \S+ "tileshell (.*?)"',
    SCRIPT: r'^\.TH \S+ \S+ \S+ "tileshell (.*?)"',
    OF_TOOL: r'^\.TH \S+ \S+ \S+ "tileshell (.*?)"',
    "CHANGELOG.md": r"^## (\S+), ",
    "debian/changelog": r"^tileshell \((.*?)\)",
}


def version_faults():
    for place, pattern in VERSIONS.items():
        found = re.search(pattern, read(place), re.MULTILINE)
        yield from differences(place, "version", {version()}, {found[1]} if found else set())


def faults():
    """A row for each that a page lacks, or that a page has and the code lacks."""
    for of in (request_faults, refusal_faults, option_faults, version_faults):
        yield from of()
