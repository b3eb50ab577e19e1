"""The files of two folders that are to be compared."""

import os
from typing import Callable, Dict, Iterator, List, Optional, Sequence, Set, Tuple

from ..compiling.git import FileChange, run_git
from ..source.files import Unreadable, files_below, is_excluded, read
from ..source.renames import renamed


def compared_below(top: str, globs: Sequence[str]) -> Tuple[Set[str], List[str]]:
    """Returns the same without hidden files and folders, those that globs exclude, and those that git ignores."""
    found, errors = files_below(top)
    found = {it for it in found if not is_excluded(it, [".*", *globs])}
    return found - ignored(top, found), errors


def ignored(top: str, names: Set[str]) -> Set[str]:
    """Returns which names below a folder git ignores: none where git can't tell, or if it ignores the folder itself."""
    listed = checked_by_git(top, {os.curdir, *names})
    return set() if os.curdir in listed else listed


def checked_by_git(top: str, names: Set[str]) -> Set[str]:
    given = b"".join(os.fsencode(it) + b"\0" for it in sorted(names))
    try:
        done = run_git(["-C", top, "check-ignore", "-z", "--stdin"], given)
    except OSError:
        return set()
    return set(map(os.fsdecode, done.stdout.split(b"\0")[:-1])) if done.returncode == 0 else set()


def changes_of(
    old: str, new: str, globs: Sequence[str] = (), expect: Callable[[int], None] = lambda _: None
) -> Iterator[FileChange]:
    """Yields what changed between two files or two folders, and tells `expect` how many more it may be, or fewer."""
    kinds = [os.path.isdir(it) for it in (old, new)]
    for path in (old, new):
        if not os.path.exists(path):
            raise Unreadable(f"{path}: No such file or directory")
    if kinds[0] != kinds[1]:
        raise Unreadable(f"{old} and {new}: one is a folder, and the other is a file")
    if not kinds[0]:
        yield from compared(new, old, new, is_given=True)
        return
    (first_names, first_errors), (second_names, second_errors) = (compared_below(it, globs) for it in (old, new))
    yield from (FileChange("", None, None, it) for it in first_errors + second_errors)
    expect(len(first_errors + second_errors) + len(first_names | second_names))
    before = renames_in(old, first_names - second_names, new, second_names - first_names)
    expect(-len(before))
    for name in sorted((first_names | second_names) - set(before.values())):
        other = before.get(name, name)
        first = os.path.join(old, other) if other in first_names else None
        second = os.path.join(new, name) if name in second_names else None
        found = list(compared(os.path.join(new, name), first, second))
        expect(len(found) - 1)
        yield from found


def renames_in(old: str, went: Set[str], new: str, came: Set[str]) -> Dict[str, str]:
    """Returns the old names of files that have another name, by the new ones. A file that can't be read has none."""
    sides: List[Dict[str, bytes]] = [{}, {}]
    for top, names, side in [(old, went, sides[0]), (new, came, sides[1])]:
        for name in names if went and came else ():
            try:
                side[name] = read(os.path.join(top, name))
            except Unreadable:
                continue
    return renamed(*sides)


def compared(
    name: str, old: Optional[str], new: Optional[str], is_given: bool = False
) -> Iterator[FileChange]:
    """Yields the change of one file, if it changed."""
    try:
        texts = [None if it is None else read(it, is_given=is_given) for it in (old, new)]
    except Unreadable as error:
        yield FileChange(name, None, None, str(error))
        return
    if texts[0] != texts[1]:
        yield FileChange(name, texts[0], texts[1])
