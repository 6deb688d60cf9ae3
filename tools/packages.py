"""What is handed on of the program: an archive, a wheel and a Debian package, of the proved program, the companions, their manual
pages, what shells complete, the pages for those who use them, and the examples. Their bytes follow from the commit and the program.

`pip install .` in a clone asks `build_wheel` for the wheel.
"""
import gzip
import hashlib
import os
import re
import shutil
import subprocess
import sys
import tomllib
from dataclasses import dataclass
from typing import Any

HERE = os.path.dirname(os.path.abspath(__file__))
sys.path.insert(0, HERE)
import archives  # noqa: E402
import build  # noqa: E402
import completions  # noqa: E402
import elf  # noqa: E402
import manual  # noqa: E402
from archives import FILE, PROGRAM, Member  # noqa: E402

ROOT = os.path.dirname(HERE)
BUILT = os.path.join(ROOT, "crates", "sdf3analysis", "out", "sdf3analysis")
PACKAGE = "sdf3companion"
PAGES = ("EXAMPLES", "COMING_FROM", "COMPANION", "LIBRARY", "FILES")
# What a page says of the sources alone stands between these two marks, and is left out of what is handed on.
ONLY_IN_A_CLONE = re.compile(r"\s*<!-- clone -->.*?<!-- /clone -->", re.S)
# What pages may speak of that lies in the repository.
OF_THE_REPOSITORY = re.compile(r"(?<![\w./-])((?:\./)?(?:docs|examples|tools|crates|bench|specs|companion|\.ci)/[\w./-]*\w|\./(?:unproved|curve)|\brt [a-z]+)")
# The packages of Debian that have the libraries which the program may ask for.
LIBRARIES = {"libc.so.6": "libc6", "libm.so.6": "libc6", "libgcc_s.so.1": "libgcc-s1", "ld-linux-x86-64.so.2": "libc6"}

COPYRIGHT = """No licence has been chosen for sdf3analysis. Until its owner does, ask before you copy it, change it or hand it on.
"""


@dataclass(frozen=True)
class Packed:
    """What is packed: the program, of which version, commit and day (in seconds of the universal time), and how it came to be."""

    program: bytes
    version: str
    commit: str
    date: int
    origin: str

    @property
    def needs(self) -> elf.Needs:
        return elf.needs(self.program)


def said(*words: str) -> str:
    """What a command prints at the top of the repository."""
    return subprocess.run(words, cwd=ROOT, capture_output=True, text=True, check=True).stdout.strip()


def read(name: str) -> bytes:
    with open(os.path.join(ROOT, name), "rb") as file:
        return file.read()


def text(name: str) -> str:
    return read(name).decode()


def project() -> dict[str, Any]:
    """What pyproject.toml says of the project."""
    found: dict[str, Any] = tomllib.loads(text("pyproject.toml"))["project"]
    return found


def packed_of(program: str, origin: str) -> Packed:
    """A program to be packed, at the commit that is checked out."""
    with open(program, "rb") as file:
        return Packed(file.read(), text("VERSION").strip(), said("git", "rev-parse", "HEAD"), int(said("git", "log", "-1", "--format=%ct")), origin)


def proved_text(packed: Packed) -> str:
    """What `--version` prints: which commit was proved, and by which kit."""
    day = said("git", "log", "-1", "--format=%cs")
    return f"sdf3analysis {packed.version}\ncommit {packed.commit}\ndate {day}\nkit {packed.origin}\nprogram sha256 {archives.sha256(packed.program)}\n"


def tracked(folder: str) -> list[str]:
    """The files of a folder that are kept in the repository."""
    return said("git", "ls-files", "--cached", "--others", "--exclude-standard", folder).splitlines()


def python_package(packed: Packed) -> list[Member]:
    """The companions as a Python package, with the proved program and what runs it beside them, where they look for it."""
    names = [name for name in tracked(f"companion/{PACKAGE}") if os.path.exists(os.path.join(ROOT, name))]
    own = [Member(name.removeprefix("companion/"), read(name)) for name in names]
    return own + [
        Member(f"{PACKAGE}/program", packed.program, PROGRAM),
        Member(f"{PACKAGE}/sdf3analysis", read("tools/runner"), PROGRAM),
        Member(f"{PACKAGE}/PROVED", proved_text(packed).encode()),
        *(Member(f"{PACKAGE}/{name}", read(f"tools/{name}")) for name in ("running.sh", "help.txt", "tunables")),
    ]


def page(name: str) -> str:
    """A page without what it says of a clone alone."""
    return re.sub(r"\n{3,}", "\n\n", ONLY_IN_A_CLONE.sub("", text(name)))


def documents(packed: Packed) -> list[Member]:
    """The pages for those who use the program, with their pictures, and the examples."""
    pages = ["README.md", *(f"docs/{name}.md" for name in PAGES if os.path.exists(os.path.join(ROOT, "docs", f"{name}.md")))]
    texts = {name: page(name) for name in pages}
    pictures = {f"docs/pictures/{name}" for own in texts.values() for name in re.findall(r"\]\((?:docs/)?pictures/([\w.]+)\)", own)}
    found = [Member(name, own.encode()) for name, own in texts.items()]
    found += [Member(name, read(name)) for name in [*sorted(pictures), *tracked("examples"), "CHANGELOG.md"]]
    found.append(Member("PROVED", proved_text(packed).encode()))
    for fault in strangers(texts, {member.path for member in found}):
        raise ValueError(fault)
    return found


def strangers(pages: dict[str, str], inside: set[str]) -> list[str]:
    """What pages speak of that isn't handed on with them: a file of the repository, or a command that is run in a clone."""
    found = []
    for name, own in pages.items():
        for path in OF_THE_REPOSITORY.findall(own):
            if path.removeprefix("./") not in inside and not any(known.startswith(f"{path}/") for known in inside):
                found.append(f"{name} speaks of {path}, which isn't handed on; what is for a clone alone stands between <!-- clone --> and <!-- /clone -->")
    return found


def manual_pages() -> list[Member]:
    return [Member("sdf3analysis.1", read("docs/sdf3analysis.1")), Member("sdf3companion.1", manual.companion_page().encode())]


def compressed(member: Member, date: int) -> Member:
    return Member(f"{member.path}.gz", gzip.compress(member.data, mtime=date))


def shell_words() -> tuple[list[Member], list[Member]]:
    """What bash completes, and what zsh completes, a file for each command."""
    programs = {"sdf3analysis": manual.algorithms(), "sdf3companion": manual.companions()}
    bash = [Member(name, completions.bash(name, commands).encode()) for name, commands in programs.items()]
    zsh = [Member(f"_{name}", completions.zsh(name, commands).encode()) for name, commands in programs.items()]
    return bash, zsh


def archive(packed: Packed) -> tuple[str, bytes]:
    """An archive that runs where it is unpacked."""
    bash, zsh = shell_words()
    name = f"sdf3analysis-{packed.version}-linux-{packed.needs.machine}"
    members = [
        *(member.under("companion") for member in python_package(packed)),
        *documents(packed),
        *(member.under("docs") for member in manual_pages()),
        *(member.under("completions/bash") for member in bash),
        *(member.under("completions/zsh") for member in zsh),
        Member("sdf3analysis", mode=0o777, target=f"companion/{PACKAGE}/sdf3analysis"),
        Member("sdf3companion", read("sdf3companion"), PROGRAM),
    ]
    return f"{name}.tar.gz", archives.tar_gz([member.under(name) for member in members], packed.date)


def metadata(packed: Packed) -> bytes:
    """What a wheel says of itself."""
    own = project()
    lines = ["Metadata-Version: 2.1", f"Name: {own['name']}", f"Version: {packed.version}", f"Summary: {own['description']}",
             f"Requires-Python: {own['requires-python']}"]
    lines += [f"Classifier: {classifier}" for classifier in own["classifiers"]]
    for extra, packages in own["optional-dependencies"].items():
        lines += [f"Provides-Extra: {extra}", *(f'Requires-Dist: {package}; extra == "{extra}"' for package in packages)]
    return "\n".join([*lines, "Description-Content-Type: text/markdown", "", page("README.md")]).encode()


def wheel(packed: Packed) -> tuple[str, bytes]:
    """A wheel for the machine and the C library that the program needs."""
    major, minor = packed.needs.c_library
    tag = f"py3-none-manylinux_{major}_{minor}_{packed.needs.machine}"
    name = f"sdf3analysis-{packed.version}"
    scripts = "".join(f"{command} = {target}\n" for command, target in project()["scripts"].items())
    bash, zsh = shell_words()
    shared = [
        *(member.under("man/man1") for member in manual_pages()),
        *(member.under("bash-completion/completions") for member in bash),
        *(member.under("zsh/site-functions") for member in zsh),
        *(member.under("doc/sdf3analysis") for member in documents(packed)),
    ]
    members = [
        *python_package(packed),
        *(member.under(f"{name}.data/data/share") for member in shared),
        Member(f"{name}.dist-info/METADATA", metadata(packed)),
        Member(f"{name}.dist-info/WHEEL", f"Wheel-Version: 1.0\nGenerator: sdf3analysis\nRoot-Is-Purelib: false\nTag: {tag}\n".encode()),
        Member(f"{name}.dist-info/entry_points.txt", f"[console_scripts]\n{scripts}".encode()),
    ]
    return f"{name}-{tag}.whl", archives.zipped([*members, archives.record(members, f"{name}.dist-info/RECORD")], packed.date)


def debian_depends(packed: Packed) -> str:
    """The packages that the program and the companions need."""
    needs = packed.needs
    unknown = [library for library in needs.libraries if library not in LIBRARIES]
    if unknown:
        raise ValueError(f"it isn't known which package has {unknown[0]}")
    packages = {LIBRARIES[library] for library in needs.libraries}
    major, minor = needs.c_library
    versions = {"libc6": f" (>= {major}.{minor})"}
    return ", ".join([*(f"{package}{versions.get(package, '')}" for package in sorted(packages)), "python3 (>= 3.9)"])


def debian_control(packed: Packed, members: list[Member]) -> bytes:
    size = sum(-(-len(member.data) // 1024) for member in members)
    return f"""Package: sdf3analysis
Version: {packed.version}
Architecture: {packed.needs.debian_machine}
Maintainer: {said('git', 'log', '-1', '--format=%cn <%ce>')}
Installed-Size: {size}
Depends: {debian_depends(packed)}
Recommends: graphviz
Suggests: python3-networkx, python3-distributed
Section: science
Priority: optional
Description: {project()['description'].lower()}
 Reads dataflow graphs in the file form of SDF3 and says how fast they can run and
 how much buffer memory each speed costs. The analyser is proved; the companions
 around it, sdf3companion, are not.
""".encode()


def debian(packed: Packed) -> tuple[str, bytes]:
    """A package for Debian and what is made of it."""
    bash, zsh = shell_words()
    python = "usr/lib/python3/dist-packages"
    launcher = f"#!/usr/bin/python3\nfrom {PACKAGE}.__main__ import console\n\nconsole()\n"
    members = [
        *(member.under(python) for member in python_package(packed)),
        Member("usr/bin/sdf3analysis", mode=0o777, target=f"../lib/python3/dist-packages/{PACKAGE}/sdf3analysis"),
        Member("usr/bin/sdf3companion", launcher.encode(), PROGRAM),
        *(compressed(member, packed.date).under("usr/share/man/man1") for member in manual_pages()),
        *(member.under("usr/share/bash-completion/completions") for member in bash),
        *(member.under("usr/share/zsh/vendor-completions") for member in zsh),
        *(member.under("usr/share/doc/sdf3analysis") for member in documents(packed)),
        Member("usr/share/doc/sdf3analysis/copyright", COPYRIGHT.encode()),
    ]
    sums = "".join(f"{hashlib.md5(member.data).hexdigest()}  {member.path}\n" for member in archives.by_path(members) if not member.target)
    control = [Member("control", debian_control(packed, members)), Member("md5sums", sums.encode(), FILE)]
    parts = [("debian-binary", b"2.0\n"), ("control.tar.gz", archives.tar_gz(control, packed.date, "./")),
             ("data.tar.gz", archives.tar_gz(members, packed.date, "./"))]
    return f"sdf3analysis_{packed.version}_{packed.needs.debian_machine}.deb", archives.ar(parts, packed.date)


def all_of(packed: Packed) -> dict[str, bytes]:
    """All files that are handed on, by name: the three packages, what was proved, and the checksums."""
    found = {name: data for name, data in (archive(packed), wheel(packed), debian(packed))}
    found["PROVED"] = proved_text(packed).encode()
    found["SHA256SUMS"] = "".join(f"{archives.sha256(data)}  {name}\n" for name, data in sorted(found.items())).encode()
    return found


def kit() -> str:
    """The kit at hand, as it names itself."""
    return said("rt", "version") if shutil.which("rt") else "unknown"


def build_wheel(wheel_directory: str, config_settings: object = None, metadata_directory: object = None) -> str:
    """The wheel of what is proved and built in this clone, for `pip`."""
    if said("git", "status", "--porcelain"):
        raise SystemExit("the sources differ from those that are committed")
    if not build.is_of_sources("sdf3analysis"):
        raise SystemExit("the program isn't built from these sources; tools/build.py proves and builds it")
    name, data = wheel(packed_of(BUILT, kit()))
    with open(os.path.join(wheel_directory, name), "wb") as file:
        file.write(data)
    return name


def build_sdist(sdist_directory: str, config_settings: object = None) -> str:
    raise SystemExit("sources are handed on by git alone")
