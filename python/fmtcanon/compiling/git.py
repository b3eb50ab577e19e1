"""What changed between two revisions of a git repository, or between one and the work tree or what is staged.

git is asked for its objects, its trees and its index alone. The files of the work tree are read here, so that nothing
runs that a repository names: no hook, no filter, no program for watching, comparing or fetching.
"""

import contextlib
import functools
import hashlib
import os
import re
import select
import stat
import subprocess
from typing import Any, Callable, ContextManager, Dict, Iterable, Iterator, List, NamedTuple, Optional, Sequence, Set

from ..source.files import MOST, SOURCES, Unreadable, as_text, is_excluded, read
from ..source.renames import renamed
from .running import started

# The modes of a file, and that of a submodule.
FILES, SUBMODULE = ("100644", "100755"), "160000"
# It leaves the index alone, maps packs in parts, for which its memory is enough, and gets no objects from elsewhere:
# for that it would run what a repository names.
GIT = ["git", "-c", "core.fsmonitor=false", "-c", "core.packedGitWindowSize=32m", "-c", "core.packedGitLimit=512m"]
ENVIRONMENT = {"GIT_OPTIONAL_LOCKS": "0", "GIT_ALLOW_PROTOCOL": "", "GIT_NO_LAZY_FETCH": "1"}
# What git changes by itself when it checks a file out, and the attributes with which it does: the ends of lines, also
# if this is configured for all files, and a word.
LINE_END, IDENTITY = re.compile(rb"\r+\n"), re.compile(rb"\$Id:[^$\n]*\$")
OF_LINE_ENDS, OF_IDENTITY, FOR_ALL = ("text", "eol", "crlf"), "ident", "core.autocrlf"
OFF = ("", "false", "no", "off", "0")
# The status of git if there is no such thing.
NOTHING = 1
# The seconds that git may take for one answer.
SECONDS = 300
# Gives the bytes of an object.
Blob = Callable[[str], bytes]


class GitEnded(Unreadable):
    """Nothing more is asked of git, and why."""


def late() -> GitEnded:
    return GitEnded(f"git took more than {SECONDS} seconds")


class FileChange(NamedTuple):
    """A file as it was and as it is; None if it wasn't or isn't there. The name is that of the new file. If it can't be
    read, or isn't compared, this says why.
    """

    name: str
    old: Optional[bytes]
    new: Optional[bytes]
    error: str = ""
    why_not: str = ""


def started_git(words: Sequence[Any], **streams: Any) -> ContextManager["subprocess.Popen[bytes]"]:
    return started([*GIT, *words], os.curdir, {**os.environ, **ENVIRONMENT}, **streams)


def run_git(words: Sequence[Any], given: bytes = b"") -> "subprocess.CompletedProcess[bytes]":
    """Runs git on an input. Raises `OSError` if it can't be run, and `GitEnded` if it takes too long."""
    pipe = subprocess.PIPE
    with started_git(words, stdin=pipe, stdout=pipe, stderr=pipe) as process:
        try:
            output, errors = process.communicate(given, timeout=SECONDS)
        except subprocess.TimeoutExpired as error:
            raise late() from error
    return subprocess.CompletedProcess(words, process.returncode, output, errors)


class GitFile(NamedTuple):
    """The mode of a file, empty if there is none, and its object; none for one of the work tree."""

    mode: str
    object: str = ""

    @property
    def is_file(self) -> bool:
        return self.mode in FILES


class Entry(NamedTuple):
    """What may have changed, by its name below the top."""

    name: str
    old: GitFile
    new: GitFile


class Git:
    """A git repository, asked by its plumbing."""

    def __init__(self) -> None:
        self.is_in_work_tree = self.run(["rev-parse", "--is-inside-work-tree"]) == b"true\n"
        # Without a work tree, names are those below the top of the repository.
        top = self.run(["rev-parse", "--show-toplevel"]).rstrip(b"\n") if self.is_in_work_tree else os.getcwdb()
        self.top = os.fsdecode(top)

    def answer(self, words: Sequence[Any]) -> str:
        """Returns what git answers, or nothing if there is no such thing: not if it ends in another way."""
        return self.run(words, (0, NOTHING)).decode().strip()

    @staticmethod
    def run(words: Sequence[Any], statuses: Sequence[int] = (0,), given: bytes = b"") -> bytes:
        try:
            done = run_git(words, given)
        except OSError as error:
            raise Unreadable(f"git can't be run: {error.strerror or error}") from error
        if done.returncode not in statuses:
            said = done.stderr.decode(errors="replace").strip().partition("\n")[0]
            raise Unreadable(
                f"git: {said.partition('fatal: ')[2] or said or f'it ended with status {done.returncode}'}"
            )
        return done.stdout

    def object(self, revision: str, kind: str) -> str:
        """Returns the tree or the commit of a revision. Raises `Unreadable` for one that isn't there."""
        found = self.answer(["rev-parse", "--verify", "--quiet", f"{revision}^{{{kind}}}"])
        if not found:
            why = "the repository has no commits" if revision == "HEAD" else f"there is no revision {revision}"
            raise Unreadable(f"git: {why}")
        return found

    def has(self, revision: str) -> bool:
        return bool(self.answer(["rev-parse", "--verify", "--quiet", f"{revision}^{{tree}}"]))

    def merge_base(self, first: str, second: str) -> str:
        found = self.answer(["merge-base", *(self.object(it, "commit") for it in (first, second))])
        if not found:
            raise Unreadable(f"git: {first} and {second} have no merge base")
        return found

    def trees(self, revisions: Sequence[str]) -> List[str]:
        """Returns the trees of one or two revisions, also of `A..B`, and of `A...B`, which begins at their merge base.
        """
        if len(revisions) == 1 and ".." in revisions[0]:
            dots = "..." if "..." in revisions[0] else ".."
            revisions = [it or "HEAD" for it in revisions[0].split(dots, 1)]
            if dots == "...":
                revisions = [self.merge_base(*revisions), revisions[1]]
        return [self.object(it, "tree") for it in revisions]

    def entries(self, trees: Sequence[str], paths: Sequence[str]) -> Iterator[Entry]:
        """Yields what changed between two trees, or between one and the index."""
        command = ["diff-index", "--cached"] if len(trees) == 1 else ["diff-tree", "-r"]
        options = ["--raw", "-z", "--no-renames", "--no-abbrev", "--ignore-submodules=dirty"]
        fields = self.run([*command, *options, *trees, "--", *paths]).split(b"\0")[:-1]
        for said, name in zip(fields[::2], fields[1::2]):
            old_mode, new_mode, old, new, _ = said.decode().lstrip(":").split()
            yield Entry(os.fsdecode(name), GitFile(old_mode, old), GitFile(new_mode, new))

    def in_work_tree(self, entries: Iterable[Entry], paths: Sequence[str]) -> Iterator[Entry]:
        """Yields what is in a tree or in the index, as the work tree has it, by what changed between these."""
        if not self.is_in_work_tree:
            raise Unreadable("git: there is no work tree here")
        changed = {it.name: it for it in entries}
        for said in self.run(["ls-files", "-s", "-t", "-z", "--full-name", "--", *paths]).split(b"\0")[:-1]:
            front, _, below = said.partition(b"\t")
            tag, mode, found, stage = front.decode().split()
            name = os.fsdecode(below)
            one = changed.pop(name, None)
            if one or stage == "0":
                old, now = one.old if one else GitFile(mode, found), self.in_folder(name, mode)
                # What is outside of a sparse checkout isn't there.
                yield Entry(name, old, old if tag == "S" and not now.mode else now)
        yield from (it._replace(new=GitFile("")) for it in changed.values())

    def in_folder(self, name: str, mode: str) -> GitFile:
        """Returns what the work tree has for an entry of the index with this mode."""
        path = os.path.join(self.top, name)
        if mode == SUBMODULE:
            return GitFile(mode, self.head_of(path))
        try:
            is_file = stat.S_ISREG(os.lstat(path).st_mode) and is_without_links(os.path.dirname(path))
        except OSError:
            is_file = False
        return GitFile(FILES[0] if is_file else "")

    def head_of(self, path: str) -> str:
        """Returns the commit that a submodule has checked out, or nothing if it isn't."""
        own = os.path.join(path, ".git")
        is_there = os.path.lexists(own)
        return self.answer([f"--git-dir={own}", "rev-parse", "--verify", "--quiet", "HEAD"]) if is_there else ""

    def is_checked_out(self, name: str, old: bytes, new: bytes) -> bool:
        """Returns whether a file of the work tree is what git makes of another text, by the attributes of the file.
        What programs or charsets make of it is a change.
        """
        words = ["check-attr", "-z", *OF_LINE_ENDS, OF_IDENTITY, "--", os.path.join(self.top, name)]
        fields = self.run(words).decode(errors="replace").split("\0")
        values = {it: value for it, value in zip(fields[1::3], fields[2::3]) if value != "unspecified"}
        if any(values.get(it, "unset") != "unset" for it in OF_LINE_ENDS) or (not values and self.has_line_ends):
            old, new = (LINE_END.sub(b"\n", it) for it in (old, new))
        if values.get(OF_IDENTITY) == "set":
            old, new = (IDENTITY.sub(b"$Id$", it) for it in (old, new))
        return old == new

    @functools.cached_property
    def has_line_ends(self) -> bool:
        """Whether git changes the ends of lines of all files of text."""
        return self.answer(["config", "--get", FOR_ALL]).lower() not in OFF

    def changes(
        self,
        revisions: Sequence[str],
        paths: Sequence[str],
        globs: Sequence[str] = (),
        is_cached: bool = False,
        expect: Callable[[int], None] = lambda _: None,
        is_source: Callable[[str], Any] = SOURCES.fullmatch,
    ) -> Iterator[FileChange]:
        """Yields what changed in the sources among the files of these paths, or of all, and tells `expect` how many
        more it may be, or fewer.
        """
        given = {os.path.realpath(it) for it in paths}
        trees = self.trees(revisions)
        entries: Iterable[Entry] = self.entries(trees, paths)
        if len(trees) == 1 and not is_cached:
            entries = self.in_work_tree(entries, paths)
        found = [it for it in entries if self.is_compared(it, globs, given, is_source)]
        expect(len(found))
        with objects() as blob:
            before = self.renames(found, blob)
            old = {it.name: it.old for it in found}
            for one in found:
                renamed_from = before.get(one.name, one.name)
                is_left = one.name in before.values()
                change = None if is_left else self.change_of(one._replace(old=old[renamed_from]), blob)
                if change:
                    yield change
                else:
                    expect(-1)

    def is_compared(
        self, one: Entry, globs: Sequence[str], given: Set[str], is_source: Callable[[str], Any]
    ) -> bool:
        path = os.path.join(self.top, one.name)
        is_submodule = SUBMODULE in (one.old.mode, one.new.mode)
        return not is_excluded(one.name, globs) and bool(is_submodule or is_source(path) or path in given)

    def renames(self, entries: Sequence[Entry], blob: Blob) -> Dict[str, str]:
        """Returns the old names of files that have another name, by the new ones."""
        went = [it for it in entries if it.old.is_file and not it.new.is_file]
        came = [it for it in entries if it.new.is_file and not it.old.is_file]
        texts: List[Dict[str, bytes]] = [{}, {}]
        named = [*((it.name, it.old, texts[0]) for it in went), *((it.name, it.new, texts[1]) for it in came)]
        for name, file, text in named if went and came else ():
            try:
                text[name] = self.text(os.path.join(self.top, name), file, blob) or b""
            except GitEnded:
                raise
            except Unreadable:
                # What is said of it later.
                pass
        return renamed(*texts)

    def change_of(self, entry: Entry, blob: Blob) -> Optional[FileChange]:
        """Returns the change of a file, if it changed."""
        name = os.path.relpath(os.path.join(self.top, entry.name))
        if SUBMODULE in (entry.old.mode, entry.new.mode):
            is_same = entry.old == entry.new or not entry.new.object
            return None if is_same else FileChange(name, None, None, why_not="a submodule that changed isn't compared")
        try:
            new = self.text(name, entry.new, blob)
            if new is not None and entry.old.object == object_of(new, len(entry.old.object)):
                return None
            old = self.text(name, entry.old, blob)
            is_same = old == new
            if old is not None and new is not None and not entry.new.object:
                is_same = is_same or (as_kept(old) == as_kept(new) and self.is_checked_out(entry.name, old, new))
        except GitEnded:
            raise
        except Unreadable as error:
            return FileChange(name, None, None, str(error))
        return None if is_same else FileChange(name, old, new)

    @staticmethod
    def text(name: str, file: GitFile, blob: Blob) -> Optional[bytes]:
        """Returns the bytes of a file: of git's object or, without one, of the work tree. None if it isn't a file."""
        if not file.is_file:
            return None
        return as_text(name, blob(file.object)) if file.object else read(name)


@functools.lru_cache(maxsize=1024)
def is_without_links(folder: str) -> bool:
    return os.path.realpath(folder) == folder


def object_of(data: bytes, length: int) -> str:
    """Returns the name that git gives an object of a file, by the length of such names."""
    made = hashlib.new("sha256" if length == 64 else "sha1", b"blob %d\0" % len(data), usedforsecurity=False)
    made.update(data)
    return made.hexdigest()


def as_kept(data: bytes) -> bytes:
    """Returns the bytes of a file without what git itself may change when it checks it out."""
    return IDENTITY.sub(b"$Id$", LINE_END.sub(b"\n", data))


@contextlib.contextmanager
def objects() -> Iterator[Blob]:
    """Gives a function that returns the bytes of an object of git. It raises `Unreadable` for one that is missing."""

    def blob(name: str) -> bytes:
        try:
            given.write(name.encode() + b"\n")
            given.flush()
        except BrokenPipeError as error:
            raise Unreadable("git: cat-file ended") from error
        if not select.select([taken], [], [], SECONDS)[0]:
            raise late()
        header = taken.readline().split()
        if not header:
            raise Unreadable("git: cat-file ended")
        if len(header) != 3:
            raise Unreadable(f"git: the object {name} is missing")
        if int(header[2]) > MOST:
            raise GitEnded(f"git: the object {name} is too large")
        return taken.read(int(header[2]) + 1)[:-1]

    with started_git(["cat-file", "--batch"], stdin=subprocess.PIPE, stdout=subprocess.PIPE) as running:
        assert running.stdin and running.stdout
        given, taken = running.stdin, running.stdout
        yield blob
