"""Rows of many answers, as CSV or as JSON documents on a line each; in a file they survive a run that is cut off."""
from __future__ import annotations

import csv
import fcntl
import hashlib
import io
import json
import os
import sys
from typing import Any, Collection, Dict, List, Optional, Sequence, TextIO

from sdf3companion import output
from sdf3companion.faults import FORM, REJECTED, SHELF, Fault

FIELDS = ["file", "key", "status", "rate", "line"]
Row = Dict[str, Any]


def key_of(data: bytes, words: Sequence[str]) -> str:
    """What an answer depends on: the bytes of the file, and the words."""
    return hashlib.sha256("\0".join(words).encode("utf-8", "surrogateescape") + b"\0" + data).hexdigest()[:16]


def csv_rows(text: str) -> List[Row]:
    """The rows of a text under the head of these rows; an empty text has none."""
    found = list(csv.reader(io.StringIO(text)))
    if found and found[0] != FIELDS or any(len(row) != len(FIELDS) for row in found):
        raise ValueError
    return [dict(zip(FIELDS, row)) for row in found[1:]]


class Table:
    """Rows on standard output, or in a file. A file's rows that still hold are kept; `refused` counts those that don't count."""

    def __init__(self, path: Optional[str], is_json: bool) -> None:
        self.path, self.is_json = None if path == output.STANDARD else path, is_json
        self.kept = self.read(self.path) if self.path is not None and os.path.exists(self.path) else []
        self.refused = 0
        self.file: Optional[TextIO] = None

    def read(self, path: str) -> List[Row]:
        """The rows of a file; a last one that was cut off is dropped."""
        text = output.read(path).decode("utf-8", "surrogateescape")
        text = text[:text.rfind("\n") + 1]
        try:
            rows = [json.loads(line) for line in text.splitlines()] if self.is_json else csv_rows(text)
            if any(list(row) != FIELDS for row in rows):
                raise ValueError
            return [row for row in rows if int(row["status"]) != REJECTED]
        except (ValueError, TypeError, csv.Error):
            raise Fault(FORM, f"{path} stands already, and isn't rows of this command{' with --json' if self.is_json else ''}") from None

    def has(self, path: str, key: str) -> bool:
        return any(row["file"] == path and row["key"] == key for row in self.kept)

    def spelled(self, row: Row) -> str:
        """The line of a row."""
        if self.is_json:
            return json.dumps(row) + "\n"
        text = io.StringIO()
        csv.DictWriter(text, FIELDS, lineterminator="\n").writerow(row)
        return text.getvalue()

    def begin(self, anew: Collection[str]) -> None:
        """Puts what is kept under the name, without the files that are run anew, and goes on behind it."""
        head = "" if self.is_json else ",".join(FIELDS) + "\n"
        if self.path is None:
            sys.stdout.write(head)
            return
        self.refuse_others(self.path)
        output.put(self.path, head + "".join(self.spelled(row) for row in self.kept if row["file"] not in anew))
        try:
            self.file = open(self.path, "a", encoding="utf-8", errors="surrogateescape")
        except OSError as fault:
            raise Fault(SHELF, f"{self.path} can't be written: {fault.strerror}") from fault
        self.lock(self.file, self.path)

    def refuse_others(self, path: str) -> None:
        """Ends where another run is writing the rows."""
        if os.path.isfile(path):
            with open(path, "rb") as standing:
                self.lock(standing, path)

    def lock(self, file: Any, path: str) -> None:
        """Keeps the rows for this run; a device can't be kept, and needn't."""
        if os.path.isfile(path):
            try:
                fcntl.flock(file, fcntl.LOCK_EX | fcntl.LOCK_NB)
            except OSError:
                raise Fault(SHELF, f"{path} is being written by another run") from None

    def add(self, path: str, key: str, status: int, rate: Optional[str], line: str) -> None:
        """Adds a row, in one piece."""
        self.refused += status == REJECTED
        out = self.file or sys.stdout
        try:
            out.write(self.spelled(dict(zip(FIELDS, (path, key, status, rate or "", line)))))
            out.flush()
        except OSError as fault:
            raise Fault(SHELF, f"{self.path} can't be written: {fault.strerror}") from fault

    def end(self) -> None:
        """Looks whether the rows stand under their name, since another run may have begun at the same moment."""
        if self.file is not None and self.path is not None and os.path.isfile(self.path):
            if os.fstat(self.file.fileno()).st_ino != os.stat(self.path).st_ino:
                raise Fault(SHELF, f"another run has put {self.path} meanwhile, so these rows aren't in it: run this again")
