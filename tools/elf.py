"""What a program asks of the machine and of the C library, read from the program's own tables (ELF, 64 bits, little-endian)."""
import struct
from collections.abc import Iterator
from dataclasses import dataclass

LOAD, DYNAMIC = 1, 2
STRINGS, NEEDED, VERSIONS, VERSION_COUNT = 5, 1, 0x6FFFFFFE, 0x6FFFFFFF
MACHINES = {62: ("x86_64", "amd64"), 183: ("aarch64", "arm64")}


@dataclass(frozen=True)
class Needs:
    """The machine, as Python and as Debian call it, the libraries, and the least version of the C library."""

    machine: str
    debian_machine: str
    libraries: list[str]
    c_library: tuple[int, int]


def segments(program: bytes) -> list[tuple[int, int, int, int]]:
    """The segments: kind, place in the file, address, length in the file."""
    start, = struct.unpack_from("<Q", program, 32)
    size, count = struct.unpack_from("<HH", program, 54)
    rows = [struct.unpack_from("<IIQQQQ", program, start + at * size) for at in range(count)]
    return [(row[0], row[2], row[3], row[5]) for row in rows]


def place_of(address: int, parts: list[tuple[int, int, int, int]]) -> int:
    """Where in the file an address lies."""
    for kind, place, begin, length in parts:
        if kind == LOAD and begin <= address < begin + length:
            return address - begin + place
    raise ValueError("an address of the program lies in none of its segments")


def text_at(program: bytes, place: int) -> str:
    return program[place:program.index(b"\0", place)].decode()


def versions(program: bytes, place: int, count: int, strings: int) -> Iterator[str]:
    """The versions that are asked for, of all libraries, as `GLIBC_2.34`."""
    for _ in range(count):
        _, rows, _, first, following = struct.unpack_from("<HHIII", program, place)
        row = place + first
        for _ in range(rows):
            _, _, _, name, next_row = struct.unpack_from("<IHHII", program, row)
            yield text_at(program, strings + name)
            row += next_row
        place += following


def needs(program: bytes) -> Needs:
    """What a program asks for; one that is linked as a whole asks for no library."""
    if program[:6] != b"\x7fELF\x02\x01":
        raise ValueError("this is no program for Linux on 64 bits")
    machine, = struct.unpack_from("<H", program, 18)
    if machine not in MACHINES:
        raise ValueError(f"the machine of the program, {machine}, isn't known")
    parts = segments(program)
    rows: list[tuple[int, int]] = []
    for kind, place, _, length in parts:
        if kind == DYNAMIC:
            rows += [(tag, value) for tag, value in struct.iter_unpack("<QQ", program[place:place + length])]
    one = dict(rows)
    strings = place_of(one[STRINGS], parts) if rows else 0
    found = versions(program, place_of(one[VERSIONS], parts), one[VERSION_COUNT], strings) if VERSIONS in one else iter(())
    numbers = [tuple(map(int, name[6:].split(".")[:2])) for name in found if name.startswith("GLIBC_2")]
    least = max([(major, minor) for major, minor in numbers], default=(2, 17))
    return Needs(*MACHINES[machine], [text_at(program, strings + value) for tag, value in rows if tag == NEEDED], least)
