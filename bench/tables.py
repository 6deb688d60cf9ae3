"""The tables that benchmarks print, and the words that choose among their rows."""
import argparse
from collections.abc import Iterable, Sequence


class Table:
    """A table that is printed row by row. Each column has a head and a width: numbers end where it ends, and words, of which the
    width is negative, begin where it begins. What follows the last column may be as long as it is."""

    def __init__(self, columns: Sequence[tuple[str, int]], after: str = "") -> None:
        self.widths = [width for _, width in columns]
        self.row(*(head for head, _ in columns), after=after)

    def row(self, *cells: object, after: str = "") -> None:
        shown = [str(cell).ljust(-width) if width < 0 else str(cell).rjust(width) for cell, width in zip(cells, self.widths)]
        print(" ".join(shown) + (f"  {after}" if after else ""), flush=True)


def count(word: str) -> int:
    """The number that a word gives, which may have commas."""
    number = int(word.replace(",", ""))
    if number < 1:
        raise argparse.ArgumentTypeError("at least 1 is wanted")
    return number


def list_rows(parser: argparse.ArgumentParser, names: Iterable[str]) -> None:
    """Names the rows of a benchmark in its help."""
    parser.epilog = "\n".join(["rows:", *(f"  {name}" for name in names)])


def add_word(parser: argparse.ArgumentParser, names: Iterable[str]) -> None:
    """Adds the word that chooses among rows of these names."""
    parser.add_argument("word", metavar="WORD", nargs="?", default="", help="the rows whose names have the word; all by default")
    list_rows(parser, names)
