"""The worked cases of the analyser, as `docs/CASES.md` has their form: words and files, and the lines that the run shows."""
import os
import re
from typing import Dict, List, Mapping, Tuple

FOLDER = os.path.join(os.path.dirname(os.path.abspath(__file__)), "..", "..", "crates", "test_cases", "data")
ESCAPE = re.compile(r"\\(?:\\|e|x([0-9a-f]{2})|\{([0-9]+) ((?:[^\\}]|\\[^{])*)\})", re.S)


def plain(text: str) -> str:
    """A text with its escapes replaced."""
    def one(found: "re.Match[str]") -> str:
        if found[1]:
            return chr(int(found[1], 16))
        if found[2]:
            return "".join(plain(found[3].replace("#", str(number))) for number in range(int(found[2])))
        return "" if found[0] == "\\e" else "\\"
    return ESCAPE.sub(one, text)


class Content:
    """What a file or a shared text holds, line by line."""

    def __init__(self, texts: "Mapping[str, Content]") -> None:
        self.texts = texts
        self.parts: List[str] = []

    def add(self, line: str) -> None:
        if line[0] in "|>":
            self.parts.append(plain(line[1:]) + ("\n" if line[0] == "|" else ""))
            return
        name, *cut = line[1:].split(" ")
        text = str(self.texts[name])
        if cut and cut[0].endswith(".."):
            text = text[int(cut[0][:-2]):]
        elif cut:
            text = text[:int(cut[0])]
        self.parts.append(text)

    def __str__(self) -> str:
        return "".join(self.parts)


class Case:
    """A case: its words, its files, and whether something fails in it that no real file does."""

    def __init__(self, name: str) -> None:
        self.name = name
        self.words: List[str] = []
        self.files: Dict[str, Content] = {}
        self.fails = False


def lines_of(name: str) -> List[str]:
    """The lines of one of the files of cases."""
    with open(os.path.join(FOLDER, name), encoding="latin-1", newline="") as file:
        return file.read().split("\n")


def cases_of(name: str, texts: Dict[str, Content]) -> List[Case]:
    """The cases of a file, with the texts that it shares with others, and with its own put to them."""
    found: List[Case] = []
    content = Content(texts)
    for line in lines_of(f"{name}.cases"):
        key, _, rest = line.partition(" ")
        if line[:1] in ("|", ">", "@"):
            content.add(line)
        elif key == "case":
            found.append(Case(rest))
        elif key == "words":
            found[-1].words = [plain(word) for word in rest.split(" ")]
        elif key == "file":
            content = found[-1].files[plain(rest)] = Content(texts)
        elif key == "text":
            content = texts[rest] = Content(texts)
        elif key in ("shelf-fails", "out-fails", "err-fails", "out-room", "err-room", "most"):
            found[-1].fails = True
    return found


def cases() -> List[Tuple[Case, List[str]]]:
    """Each case with the lines that it has to print."""
    texts: Dict[str, Content] = {}
    found: List[Tuple[Case, List[str]]] = []
    cases_of("texts", texts)
    for file in sorted(os.listdir(FOLDER)):
        name, _, kind = file.partition(".")
        if kind == "shown":
            shown: Dict[str, List[str]] = {}
            said: List[str] = []
            for line in lines_of(file):
                if line.startswith("case "):
                    said = shown[line[5:]] = []
                else:
                    said.append(line)
            found += [(case, shown[case.name]) for case in cases_of(name, texts)]
    return found
