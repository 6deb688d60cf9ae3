"""Strongly connected parts. `networkx` finds them too; the companions run with nothing but Python's own library, so they are found here."""
from __future__ import annotations

from collections import defaultdict
from typing import DefaultDict, Iterable, List, Sequence, Set, Tuple

Ways = DefaultDict[str, List[str]]


def strong_parts(names: Sequence[str], ways: Iterable[Tuple[str, str]]) -> List[Set[str]]:
    """The strongly connected parts of names with ways between them, as sets (after Kosaraju)."""
    onward: Ways = defaultdict(list)
    back: Ways = defaultdict(list)
    for source, target in ways:
        onward[source].append(target)
        back[target].append(source)
    seen: Set[str] = set()
    order = [name for first in names for name in finished(first, onward, seen)]
    seen = set()
    found = [set(finished(name, back, seen)) for name in reversed(order)]
    return [part for part in found if part]


def finished(name: str, ways: Ways, seen: Set[str]) -> List[str]:
    """The actors that a walk in depth reaches anew from one, each once all behind it are finished."""
    if name in seen:
        return []
    seen.add(name)
    done, walk = [], [(name, iter(ways[name]))]
    while walk:
        here, rest = walk[-1]
        new = next((there for there in rest if there not in seen), None)
        if new is None:
            done.append(here)
            walk.pop()
        else:
            seen.add(new)
            walk.append((new, iter(ways[new])))
    return done
