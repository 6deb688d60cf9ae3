"""A folder from which the launchers run a program as if it had just been built there."""
import os
import shutil

ROOT = os.path.dirname(os.path.dirname(os.path.abspath(__file__)))
BUILT = os.path.join(ROOT, "crates", "sdf3analysis", "out", "sdf3analysis")
COPIED = ("sdf3analysis", "sdf3companion", "VERSION", "tools/running.sh", "tools/help.txt", "tools/tunables")


def home(folder: str) -> str:
    """Where the program lies below a folder."""
    return os.path.join(folder, "crates", "sdf3analysis", "out")


def make(folder: str, program: str) -> None:
    """Puts the launchers into a folder, with what they read, and a program that counts as built."""
    os.makedirs(home(folder))
    os.symlink(os.path.abspath(program), os.path.join(home(folder), "sdf3analysis"))
    with open(os.path.join(home(folder), "built"), "w", encoding="utf-8") as file:
        file.write("are_older\n")
    os.makedirs(os.path.join(folder, "tools"))
    for name in COPIED:
        shutil.copy2(os.path.join(ROOT, name), os.path.join(folder, name))
    for name in ("companion", "examples"):
        os.symlink(os.path.join(ROOT, name), os.path.join(folder, name))
