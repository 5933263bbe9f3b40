"""The functions of a crate's source files: their lines, and the names by which the prover speaks of them.

The files are in the layout of `rt fmt`, which the gate holds them to: an item ends at the first closing brace that is
indented as far as the item's first word.
"""
import re
from dataclasses import dataclass
from pathlib import Path

HEAD = re.compile(r"( *)(?:pub(?:\([^)]*\))? )?(?:const )?(?:unsafe )?(fn|impl|trait|mod)\b(.*)")
TYPE = re.compile(r"^(?:pub(?:\([^)]*\))? )?(?:struct|enum) (\w+)", re.MULTILINE)


@dataclass(frozen=True)
class Function:
    """A function, its file below the crate, and its first and last line, with its attributes."""
    name: str
    file: str
    first: int
    last: int


def without_parameters(text):
    """Leaves out what is in angle brackets: `Vec<Option<u8>>` is `Vec`."""
    while "<" in text:
        shorter = re.sub(r"<[^<>]*>", "", text)
        if shorter == text:
            break
        text = shorter
    return text


def words_of(text):
    """Returns a type's words without lifetimes and type parameters, the last of each path: `From<io::Error>` becomes From and Error."""
    return [it.split("::")[-1] for it in re.findall(r"(?<!')\b[A-Za-z_][\w:]*", text) if not re.fullmatch("[A-Z]", it)]


def name_of_impl(header):
    """Returns what the prover calls an impl: its type, and right after it the trait with its parameters, if it has one.

    An impl of only methods has those of its type in place of these, as `Run+Field` of `Run<Field>`.
    """
    header = header.replace("->", "")
    if header.startswith("<"):
        depth = 0
        for at, sign in enumerate(header):
            depth += (sign == "<") - (sign == ">")
            if not depth:
                header = header[at + 1:]
                break
    header = header.split(" where ")[0].strip()
    trait, found, of_type = header.partition(" for ")
    if not found:
        return "+".join(words_of(header))
    return "".join([words_of(without_parameters(of_type))[-1], *words_of(trait)])


def last_line(lines, number, indent):
    """Returns the last line of the item that begins in the line of this number: of its body, or of its declaration."""
    has_body = False
    for at, line in enumerate(lines[number - 1:], number):
        stands_out = line.startswith(indent) and not line.startswith(indent + " ")
        if stands_out and line.endswith("}"):
            return at
        if line.endswith(";") and not has_body:
            return at
        has_body = has_body or stands_out and line.endswith("{")
    return number


def inside(lines, function):
    """Returns the numbers of the lines of a function's body, between the braces. There are none if these are on one line."""
    indent = lines[function.last - 1].removesuffix("}")
    opens = (at for at in range(function.first, function.last) if lines[at - 1].startswith(indent) and lines[at - 1].endswith("{"))
    first = next((at for at in opens if not lines[at - 1].startswith(indent + " ")), function.last)
    return range(first + 1, function.last)


def functions_in(text, file, above, homes):
    """Returns the functions with a body in one file, whose own path is `above`. A trait's own are proved only at each impl.

    A method without a trait has the path of the file that its type is in, which `homes` says.
    """
    lines, found, inside = text.split("\n"), [], []
    for number, line in enumerate(lines, 1):
        inside = [it for it in inside if number <= it[0]]
        head = HEAD.match(line)
        if not head:
            continue
        indent, kind, rest = head.groups()
        last = last_line(lines, number, indent)
        if kind == "fn":
            owners = [it[1] for it in inside]
            if None not in owners and lines[last - 1].endswith("}"):
                first = number
                while lines[first - 2].startswith(indent + "#["):
                    first -= 1
                path = homes.get(owners[0].split("+")[0], above) if len(owners) == 1 else above
                found.append(Function("::".join([*path, *owners, re.match(r"\s*(\w+)", rest)[1]]), file, first, last))
        elif last > number:
            header = " ".join([rest.strip(), *(it.strip() for it in lines[number:last])]).partition("{")[0].strip()
            inside.append((last, {"impl": name_of_impl, "trait": lambda _: None, "mod": str}[kind](header)))
    return found


def path_of(file):
    """Returns the path of the module that a file below `src` is."""
    parts = list(file.with_suffix("").parts[1:])
    return parts[:-1] if parts[-1] in ("lib", "main", "mod") else parts


def functions_of(folder):
    """Returns the functions of the crate in the folder."""
    texts = {path.relative_to(folder): path.read_text() for path in sorted(Path(folder, "src").rglob("*.rt"))}
    homes = {file: {name: path_of(file) for name in TYPE.findall(text)} for file, text in texts.items()}
    all_homes = {name: path for of in homes.values() for name, path in of.items()}
    # two files may have types of the same name: a method is mostly of the one in its own
    return [it for file, text in texts.items() for it in functions_in(text, str(file), path_of(file), all_homes | homes[file])]
