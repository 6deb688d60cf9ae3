"""An empty root in which a package is tried: nothing but files of Debian packages that this machine has installed, chosen by what they
depend on. No network is needed, and nothing of the machine changes."""
import os
import re
import subprocess
from collections.abc import Iterable

MERGED = {"bin": "usr/bin", "sbin": "usr/sbin", "lib": "usr/lib", "lib64": "usr/lib64"}


def said(*words: str, given: str = "") -> str:
    return subprocess.run(words, input=given, capture_output=True, text=True, check=True).stdout


def installed() -> dict[str, list[list[str]]]:
    """By name the packages that are installed, and by the names of what they provide: each with what it depends on, of which each has
    alternatives."""
    found: dict[str, list[list[str]]] = {}
    rows = said("dpkg-query", "-W", "-f", "${Status}\t${Package}\t${Pre-Depends}, ${Depends}\t${Provides}\n").splitlines()
    for status, name, depends, provides in (row.split("\t") for row in rows):
        if status != "install ok installed":
            continue
        wants = [[re.split(r"[ (:]", choice.strip())[0] for choice in one.split("|")] for one in depends.split(",") if one.strip()]
        found[name] = wants
        for other in re.findall(r"[a-z0-9][a-z0-9.+-]+(?=[ ,(]|$)", re.sub(r"\([^)]*\)", "", provides)):
            found.setdefault(other, [[name]])
    return found


def closure(names: Iterable[str]) -> list[str]:
    """The packages of some names, with all that they depend on; a KeyError names one that isn't installed."""
    known, found, waiting = installed(), set[str](), list(names)
    while waiting:
        name = waiting.pop()
        if name not in found:
            found.add(name)
            waiting += [next(choice for choice in choices if choice in known) for choices in known[name]]
    real = said("dpkg-query", "-W", "-f", "${Package}\n").split()
    return sorted(found & set(real))


def make(root: str, names: Iterable[str]) -> None:
    """Makes a root with some packages and what they depend on, of which the package manager there knows."""
    packages = closure(names)
    for name, target in MERGED.items():
        os.makedirs(os.path.join(root, target), exist_ok=True)
        os.symlink(target, os.path.join(root, name))
    paths = sorted({path for path in said("dpkg", "-L", *packages).splitlines() if path.startswith("/") and os.path.lexists(path)} - {"/."})
    # documents aren't needed, and are most of the files
    paths = [path for path in paths if not path.startswith(("/usr/share/doc/", "/usr/share/man/", "/usr/share/locale/"))]
    tar = subprocess.run(["tar", "-C", "/", "--no-recursion", "-cf", "-", "-T", "-"], input="\n".join(path[1:] for path in paths).encode(),
                         stdout=subprocess.PIPE, stderr=subprocess.DEVNULL, check=True)
    subprocess.run(["tar", "-C", root, "--keep-directory-symlink", "-xf", "-"], input=tar.stdout, check=True)
    for folder in ("dev", "tmp", "root", "var/lib/dpkg/info", "var/lib/dpkg/updates", "var/lib/dpkg/triggers"):
        os.makedirs(os.path.join(root, folder), exist_ok=True)
    with open(os.path.join(root, "dev", "null"), "w", encoding="utf-8"):
        pass
    with open(os.path.join(root, "var/lib/dpkg/status"), "w", encoding="utf-8") as file:
        file.write(said("dpkg-query", "-s", *packages))
    for path in os.listdir("/var/lib/dpkg/info"):
        if path.endswith(".list") and re.split(r"[:]|\.list$", path)[0] in packages:
            with open(os.path.join("/var/lib/dpkg/info", path), "rb") as source, open(os.path.join(root, "var/lib/dpkg/info", path), "wb") as to:
                to.write(source.read())


def run(root: str, words: list[str], folder: str = "/") -> subprocess.CompletedProcess[str]:
    """Runs a command in a root, without the network and with an empty environment."""
    inside = ["chroot", root, "/usr/bin/env", "-i", f"--chdir={folder}", "PATH=/usr/bin:/bin", "HOME=/root", *words]
    return subprocess.run(["unshare", "--net", *inside], capture_output=True, text=True, stdin=subprocess.DEVNULL, check=False)
