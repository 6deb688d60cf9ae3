"""Archives whose bytes follow from what is in them: members by name, one date, no owner, no path of the machine that made them."""
import base64
import gzip
import hashlib
import io
import tarfile
import time
import zipfile
from dataclasses import dataclass

FILE, PROGRAM = 0o644, 0o755


@dataclass(frozen=True)
class Member:
    """A file of an archive, or, where it has a target, a link to that."""

    path: str
    data: bytes = b""
    mode: int = FILE
    target: str = ""

    def under(self, folder: str) -> "Member":
        """The same member in a folder."""
        return Member(f"{folder}/{self.path}", self.data, self.mode, self.target)


def by_path(members: list[Member]) -> list[Member]:
    """The members in the order of their paths, each of which there is once."""
    ordered = sorted(members, key=lambda member: member.path)
    for one, other in zip(ordered, ordered[1:]):
        if one.path == other.path:
            raise ValueError(f"two members are {one.path}")
    return ordered


def folders_of(members: list[Member]) -> list[str]:
    """All folders that members lie in, each behind the one that it lies in."""
    found = set()
    for member in members:
        parts = member.path.split("/")[:-1]
        found |= {"/".join(parts[:count]) for count in range(1, len(parts) + 1)}
    return sorted(found)


def tar_row(path: str, kind: bytes, mode: int, date: int) -> tarfile.TarInfo:
    row = tarfile.TarInfo(path)
    row.type, row.mode, row.mtime = kind, mode, date
    row.uname = row.gname = "root"
    return row


def tar_gz(members: list[Member], date: int, top: str = "") -> bytes:
    """A compressed tar archive, with a row for each folder; paths begin with `top`."""
    plain = io.BytesIO()
    with tarfile.open(fileobj=plain, mode="w", format=tarfile.GNU_FORMAT) as archive:
        for folder in folders_of(members):
            archive.addfile(tar_row(f"{top}{folder}", tarfile.DIRTYPE, PROGRAM, date))
        for member in by_path(members):
            row = tar_row(top + member.path, tarfile.SYMTYPE if member.target else tarfile.REGTYPE, member.mode, date)
            row.linkname, row.size = member.target, len(member.data)
            archive.addfile(row, io.BytesIO(member.data))
    return gzip.compress(plain.getvalue(), mtime=date)


def ar(parts: list[tuple[str, bytes]], date: int) -> bytes:
    """An archive of the form in which Debian packages are kept, with its parts in the order given."""
    text = b"!<arch>\n"
    for name, data in parts:
        text += f"{name:16}{date:<12}{0:<6}{0:<6}{'100644':8}{len(data):<10}`\n".encode() + data + b"\n" * (len(data) % 2)
    return text


def zipped(members: list[Member], date: int) -> bytes:
    """A zip archive. Its dates are even seconds of the universal time."""
    data = io.BytesIO()
    with zipfile.ZipFile(data, "w", zipfile.ZIP_DEFLATED) as archive:
        for member in by_path(members):
            row = zipfile.ZipInfo(member.path, time.gmtime(date)[:6])
            row.create_system, row.external_attr, row.compress_type = 3, (0o100000 | member.mode) << 16, zipfile.ZIP_DEFLATED
            archive.writestr(row, member.data)
    return data.getvalue()


def sha256(data: bytes) -> str:
    return hashlib.sha256(data).hexdigest()


def record(members: list[Member], path: str) -> Member:
    """The list of members that a wheel has of itself, at a path."""
    rows = [f"{member.path},sha256={base64.urlsafe_b64encode(hashlib.sha256(member.data).digest()).decode().rstrip('=')},{len(member.data)}"
            for member in by_path(members)]
    return Member(path, ("\n".join([*rows, f"{path},,"]) + "\n").encode())
