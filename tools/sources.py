"""What the sources say of themselves: the layers of `crates.txt`, the heads of crates, and their public items with their comments and clauses."""
import os
import re
from collections.abc import Iterator
from dataclasses import dataclass

ROOT = os.path.dirname(os.path.dirname(os.path.abspath(__file__)))
CRATES = os.path.join(ROOT, "crates")


@dataclass
class Layer:
    """A layer: its title, what it has, and its crates, each with what it stands on."""

    title: str
    about: str
    crates: dict[str, list[str]]


@dataclass
class Clause:
    """A clause of an item that says what it promises: its name, empty where it is the only one, and the definitions that it cites."""

    name: str
    cites: list[str]


@dataclass
class Item:
    """A public item by the name that callers write, with its comment and its clauses; only calls have clauses."""

    name: str
    comment: str
    clauses: list[Clause]
    is_call: bool


def layers() -> list[Layer]:
    """The layers of `crates.txt`, in its order."""
    found: list[Layer] = []
    with open(os.path.join(ROOT, "crates.txt"), encoding="utf-8") as lines:
        for line in lines:
            heading = re.fullmatch(r"# ([\w-]+): (.*)\n", line)
            name, colon, libraries = line.partition(":")
            if heading:
                found.append(Layer(heading[1], heading[2], {}))
            elif colon and not line.startswith("#"):
                found[-1].crates[name.split()[0]] = libraries.split()
    return found


def text_of(path: str) -> str:
    with open(path, encoding="utf-8") as file:
        return file.read()


def home_of(crate: str) -> str:
    """The file with which a crate begins."""
    library = os.path.join(CRATES, crate, "src", "lib.rt")
    return library if os.path.exists(library) else os.path.join(CRATES, crate, "src", "main.rt")


def head_of(crate: str) -> str:
    """What a crate says of itself: its first comment."""
    lines = []
    for line in text_of(home_of(crate)).splitlines():
        if not line.startswith("//!"):
            break
        lines.append(line[3:].strip())
    return " ".join(lines)


def module_file(folder: str, path: list[str]) -> str | None:
    """The file of a module under a folder, or None where it is none of this crate's."""
    file = os.path.join(folder, *path) + ".rt"
    return file if os.path.exists(file) else None


def names_in(braces: str) -> list[str]:
    return [name.strip() for name in braces.strip("{}").split(",") if name.strip()]


def source_files(crate: str) -> list[str]:
    """The files of a crate's code."""
    folder = os.path.join(CRATES, crate, "src")
    return sorted(os.path.join(at, name) for at, _, names in os.walk(folder) for name in names if name.endswith(".rt"))


def items_of(crate: str) -> list[Item]:
    """The public items of a crate, in the order in which its first file names them; of two names of one item the shorter. Methods
    that stand apart from their type come last."""
    items = list(exported(crate, home_of(crate), ""))
    short = {(item.name, item.comment) for item in items}
    items = [item for item in items if "::" not in item.name or (item.name.partition("::")[2], item.comment) not in short]
    here = {item.name for item in items}
    apart = [item for file in source_files(crate) for item in declared(file, "") if "::" in item.name and item.name.partition("::")[0] in here]
    return items + [item for item in apart if item.name not in here]


def exported(crate: str, file: str, prefix: str) -> Iterator[Item]:
    """The items that a file exports: those of modules that it names, and its own."""
    root = os.path.join(CRATES, crate, "src")
    for module, path, names in re.findall(r"^pub (?:mod (\w+)|use ((?:\w+::)+)(\w+|\{[^}]*\}));", text_of(file), re.M):
        if module:
            inner = module_file(root, [module])
            if inner:
                yield from exported(crate, inner, f"{prefix}{module}::")
            continue
        source = module_file(root, path.removeprefix("crate::").rstrip(":").split("::"))
        if source:
            wanted = names_in(names)
            yield from (item for item in declared(source, prefix) if item.name[len(prefix):].partition("::")[0] in wanted)
    yield from declared(file, prefix)


def cited(text: str) -> set[str]:
    """The names of definitions of this repository that a file uses; those that restate the code's own types aren't among them."""
    found: set[str] = set()
    for crate, path, names in re.findall(r"ghost use Rattle\.(\w+)\.specs\.([\w.]+)\.\{([^}]*)\};", text):
        if os.path.isdir(os.path.join(CRATES, crate)) and not path.startswith(("declared", "inside")):
            found |= {name.rpartition(" as ")[2] for name in names_in(names)}
    return {name for name in found if re.fullmatch(r"\w+", name)}


def clauses_in(lines: list[str], known: set[str]) -> list[Clause]:
    """The clauses of a signature by `ensures`, as its lines have them."""
    found: list[tuple[str, str]] = []
    is_open = False
    for line in lines:
        begun = re.match(r"\s*(ensures|requires)(?: (\w+))? \{(.*)", line)
        if begun:
            is_open = begun[1] == "ensures"
            if is_open:
                found.append((begun[2] or "", begun[3]))
        elif is_open:
            found[-1] = found[-1][0], f"{found[-1][1]} {line}"
    return [Clause(name, [word for word in dict.fromkeys(re.findall(r"\w+", text)) if word in known]) for name, text in found]


def signature(lines: list[str], at: int) -> list[str]:
    """The lines of an item from its first one up to its body."""
    found: list[str] = []
    depth, has_clauses = 0, False
    for line in lines[at:]:
        if depth == 0 and found and line.strip() in ("{", "{}"):
            break
        found.append(line)
        has_clauses = has_clauses or bool(re.match(r"\s*(ensures|requires)\b", line))
        depth += line.count("{") - line.count("}")
        if depth == 0 and line.endswith(";") or not has_clauses and line.endswith(("{", "{}")):
            break
    return found


def declared(file: str, prefix: str) -> Iterator[Item]:
    """The public items that a file has: each function, and the types, the traits and the methods of both that it says something of."""
    text = text_of(file)
    lines, known, comment, owner = text.splitlines(), cited(text), [], ""
    for at, line in enumerate(lines):
        stripped = line.strip()
        if stripped.startswith("///"):
            comment.append(stripped[3:].strip())
            continue
        opened = re.match(r"(?:pub (trait)|(impl)(?:<[^{]*?>)?) (\w+)(?:<[^{]*?>)?( for .*)?(?::.*)? ?\{?$", line)
        if opened:
            owner = "" if opened[4] else f"{opened[3]}{'' if opened[2] else '.'}"
        found = re.match(r"( *)(pub )?(?:const )?(fn|struct|enum|trait|const) (\w+)", line)
        is_free = bool(found) and line.startswith("pub fn ")
        if found and (comment or is_free) and (found[2] or owner.endswith(".") and found[1]):
            within = f"{owner.rstrip('.')}::" if found[1] and owner else ""
            clauses = clauses_in(signature(lines, at), known) if found[3] == "fn" else []
            if not found[1] or owner:
                yield Item(f"{prefix}{within}{found[4]}", " ".join(filter(None, comment)), clauses, found[3] == "fn")
        if stripped and not stripped.startswith(("#[", "#![")) and not stripped.endswith(")]"):
            comment = []
