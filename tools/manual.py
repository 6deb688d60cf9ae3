"""The manual pages: that of the analyser, read for what is made of it (the text of `--help`, and what shells complete), and that of
the companions, made of what they say of themselves by `--help`."""
import functools
import os
import re
import subprocess
import sys
import textwrap
from collections.abc import Iterator
from dataclasses import dataclass, field

ROOT = os.path.dirname(os.path.dirname(os.path.abspath(__file__)))
PAGE = os.path.join(ROOT, "docs", "sdf3analysis.1")
WIDTH = 100
SHORT = 16
"""A tag with fewer letters has its text in the same line."""


@dataclass
class Item:
    """A paragraph of a section; one with a tag says what the tag is."""

    tag: str = ""
    text: str = ""


@dataclass
class Section:
    """A section of the page by its title."""

    title: str
    items: list[Item] = field(default_factory=list)


def plain(text: str) -> str:
    """A text without the marks of its fonts."""
    return re.sub(r"\\f[A-Z]", "", text).replace(r"\-", "-")


def words_of(line: str) -> str:
    """The text of a line, which may begin with the macro of a font. A macro of two fonts joins its words."""
    macro, _, rest = line.partition(" ")
    if macro in (".BR", ".RB", ".IR", ".RI", ".BI", ".IB"):
        return plain(rest.replace(" ", ""))
    return plain(rest if macro in (".B", ".I") else line)


def sections() -> list[Section]:
    """The sections of the page in their order."""
    found: list[Section] = []
    tag_is_next = False
    with open(PAGE, encoding="utf-8") as page:
        for line in page.read().splitlines():
            if line.startswith(".SH "):
                found.append(Section(line[4:], [Item()]))
            elif line == ".TP":
                tag_is_next = True
            elif tag_is_next:
                found[-1].items.append(Item(tag=words_of(line)))
                tag_is_next = False
            elif found:
                item = found[-1].items[-1]
                item.text = f"{item.text} {words_of(line)}".strip()
    for section in found:
        section.items = [item for item in section.items if item.tag or item.text]
    return found


def wrapped(text: str, first: str = "", indent: int = 0) -> list[str]:
    """The lines of a text behind its first words, the others so many places in. What brackets hold stays together."""
    kept = re.sub(r"\[[^]]*\]", lambda found: found[0].replace(" ", "\0"), text)
    lines = textwrap.wrap(kept, WIDTH, initial_indent=first, subsequent_indent=" " * indent, break_on_hyphens=False)
    return [line.replace("\0", " ") for line in lines]


def section_lines(section: Section) -> Iterator[str]:
    """A section as `--help` prints it: behind a short tag its text begins in the same line."""
    yield f"{section.title.lower()}:"
    for item in section.items:
        if len(item.tag) < SHORT:
            yield from wrapped(item.text, f"  {item.tag:{SHORT}}" if item.tag else "  ", SHORT + 2 if item.tag else 2)
        else:
            yield from wrapped(item.tag, "  ", 6)
            yield from wrapped(item.text, " " * 6, 6)


def help_text() -> str:
    """What `--help` prints: the page from its name on."""
    by_title = {section.title: section for section in sections()}
    name, synopsis = by_title.pop("NAME"), by_title.pop("SYNOPSIS")
    lines = [*wrapped(name.items[0].text), ""]
    lines += [("usage: " if at == 0 else "       ") + item.tag for at, item in enumerate(synopsis.items)]
    lines += ["", *wrapped(by_title.pop("DESCRIPTION").items[0].text)]
    for section in by_title.values():
        lines += ["", *section_lines(section)]
    return "\n".join(lines) + "\n"


@dataclass
class Option:
    """An option, the kind of value that it wants (none where it has no value), and what is said of it."""

    name: str
    value: str
    text: str = ""


@dataclass
class Command:
    """A word that a program takes, with the options that go with it, and what is said of it."""

    name: str
    text: str
    options: list[Option]


def options_in(synopsis: str) -> list[Option]:
    """The options that a synopsis names, as `--graph FILE` or `[--no-overlap]`."""
    return [Option(name, value or "") for name, value in re.findall(r"(--[a-z-]+)(?: ([A-Z]\w*(?:=\w+,\.\.)?))?", synopsis)]


def algorithms() -> list[Command]:
    """The algorithms with their options."""
    by_title = {section.title: section for section in sections()}
    said = {option.name: item.text for item in by_title["OPTIONS"].items for option in options_in(item.tag)}

    def command(item: Item) -> Command:
        options = [Option(option.name, option.value, said[option.name]) for option in options_in(item.tag)]
        return Command(item.tag.partition(" ")[0], item.text, options)

    return [command(item) for item in by_title["ALGORITHMS"].items]


@functools.cache
def companion_help(*words: str, width: int = WIDTH) -> str:
    """What the companions say of themselves, in lines of a fixed width."""
    # on the PATH, so that they call themselves by the name that runs
    own = {**os.environ, "COLUMNS": str(width), "PATH": f"{ROOT}:{os.environ.get('PATH', '')}"}
    done = subprocess.run([sys.executable, "-B", os.path.join(ROOT, "sdf3companion"), *words, "--help"], env=own, capture_output=True, text=True, check=True)
    return done.stdout


def companions() -> list[Command]:
    """The companions with their options, out of their help."""
    rows = re.findall(r"^    ([a-z]+) +(\S.*)$", companion_help(width=1000).partition("commands:")[2], re.M)
    return [Command(name, text, options_of(companion_help(name))) for name, text in rows]


def options_of(text: str) -> list[Option]:
    """The options that a help lists, each at the beginning of a line, with the first line of what is said of it."""
    rows = re.findall(r"^  (?:-\w, )?(--[a-z-]+)(?:[ =]([A-Z][^\s]*))?(?:\s{2,}(\S.*))?$", text, re.M)
    return [Option(name, value, said) for name, value, said in rows if name != "--help"]


def verbatim(text: str) -> list[str]:
    """Lines as they are, in the language of manual pages."""
    lines = [line.replace("\\", "\\e").replace("-", "\\-") for line in text.strip("\n").splitlines()]
    return [".nf", *(f"\\&{line}" if line.startswith((".", "'")) else line for line in lines), ".fi"]


def companion_page() -> str:
    """The manual page of the companions."""
    lines = [".TH SDF3COMPANION 1", ".SH NAME", "sdf3companion \\- what takes more than one run of sdf3analysis: unproved programs around it",
             ".SH SYNOPSIS", ".B sdf3companion", ".I NAME", ".RI [ WORDS ]", ".SH DESCRIPTION", *verbatim(companion_help())]
    for command in companions():
        lines += [f".SH {command.name.upper()}", *verbatim(companion_help(command.name))]
    return "\n".join([*lines, ".SH SEE ALSO", ".BR sdf3analysis (1)"]) + "\n"
