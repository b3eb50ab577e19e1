"""Finds files of two folders that have another name, by what they contain, as git does."""

import collections
import os
from typing import Counter, Dict, Iterator, List, Mapping, NamedTuple, Set, Tuple

# How much of the larger of two files both must have, and how long a part of a line is, as in git.
ALIKE, PART = 0.5, 64
# A line that more of the old files have tells nothing, and how many old files a new one is compared with.
COMMON, TRIED = 20, 10


class Rename(NamedTuple):
    """An old and a new name, and how much of the larger file both have."""

    alike: float
    old: str
    new: str

    def order(self) -> Tuple[float, bool, str, str]:
        """Returns what the best renames come first by: a file that only moved is the same rather than another."""
        return -self.alike, os.path.basename(self.old) != os.path.basename(self.new), self.old, self.new


def renamed(old: Mapping[str, bytes], new: Mapping[str, bytes]) -> Dict[str, str]:
    """Returns the old names of files that are equal or alike, by the new ones. Each old name is that of one file."""
    found: Dict[str, str] = {}
    taken: Set[str] = set()
    for find in (equal, similar):
        before = {name: data for name, data in old.items() if name not in taken}
        after = {name: data for name, data in new.items() if name not in found}
        for one in sorted(find(before, after), key=Rename.order):
            if one.old not in taken and one.new not in found:
                found[one.new] = one.old
                taken.add(one.old)
    return found


def equal(old: Mapping[str, bytes], new: Mapping[str, bytes]) -> Iterator[Rename]:
    """Yields files that contain the same. Of many that do, those of one name, or else one with the next."""
    names: List[Dict[bytes, List[str]]] = [collections.defaultdict(list), collections.defaultdict(list)]
    for side, files in zip(names, (old, new)):
        for name in sorted(files):
            if files[name]:
                side[files[name]].append(name)
    for data, before in names[0].items():
        after = names[1].get(data, [])
        by_name = {os.path.basename(it): it for it in before}
        for name in after:
            if os.path.basename(name) in by_name:
                yield Rename(1.0, by_name[os.path.basename(name)], name)
        yield from (Rename(1.0, *it) for it in zip(before, after))


def similar(old: Mapping[str, bytes], new: Mapping[str, bytes]) -> Iterator[Rename]:
    """Yields files that share enough."""
    parts = {name: parts_of(data) for name, data in old.items()}
    where: Dict[bytes, List[str]] = collections.defaultdict(list)
    for name, counts in parts.items():
        for part in counts:
            where[part].append(name)
    for name, data in new.items():
        counts = parts_of(data)
        shared: Counter[str] = collections.Counter()
        for part, count in counts.items():
            names = where.get(part, ())
            for other in names if len(names) <= COMMON else ():
                shared[other] += min(count, parts[other][part]) * len(part)
        for other, _ in shared.most_common(TRIED):
            alike = likeness(parts[other], counts, max(len(old[other]), len(data)))
            if alike >= ALIKE:
                yield Rename(alike, other, name)


def likeness(old: Counter[bytes], new: Counter[bytes], size: int) -> float:
    """Returns how much of a size two files share."""
    fewer, more = sorted((old, new), key=len)
    return sum(min(count, more[part]) * len(part) for part, count in fewer.items() if part in more) / size


def parts_of(data: bytes) -> Counter[bytes]:
    """Returns how often a file has each line, or each part of a longer one."""
    lines = data.splitlines(True)
    return collections.Counter(line[at : at + PART] for line in lines for at in range(0, len(line), PART))
