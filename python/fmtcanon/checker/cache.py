"""Keeps what was found in a file in the cache folder of the user, under a hash of all that it was made from.

That is what the compilers' preprocessors make of the file before they expand macros, which takes half the time and
has the same answers, with the definitions of these; the bytes of the files that are in it; what the compilers say of
themselves; and the question. So nothing has to be known of where compilers look for headers: they are asked. An answer
is kept only if no file changed from before the first of them ran until after the last one. An entry is written under
another name first, so that nobody reads half of it, and has a hash of itself, so that a damaged one counts as none.
"""

import collections
import contextlib
import dataclasses
import functools
import gc
import hashlib
import json
import os
import re
import stat
import tempfile
import time
import zlib
from pathlib import Path
from typing import Any, Dict, FrozenSet, Iterable, Iterator, List, NamedTuple, Optional, Sequence, Set, Tuple

from .. import __version__
from ..compiling.compile_commands import CompileCommand
from ..compiling.left import Left, own_trouble
from ..compiling.libclang import cindex
from ..compiling.line_markers import files_in
from ..compiling.stand_ins import original
from ..fitting.checking import Answer, CallLines, Found, Job, answer, answer_without
from ..fitting.unit import command_with
from ..frame.excerpts import Excerpt
from ..frame.findings import Finding
from ..frame.processes import in_order
from ..source.files import read_file

# The most bytes that are kept, how many are left once there are more, and the most of an entry, packed and not.
MOST, LEFT, MOST_PACKED, MOST_OF_ONE = 100_000_000, 80_000_000, 4_000_000, 64_000_000
# The seconds after which an unfinished entry was left by a run that ended, and those after which use is noted.
OLD, DAY = 3_600, 86_400
# The nanoseconds after which a file that is written again has another time, and where times are of whole seconds.
SETTLED, SETTLED_BY_SECONDS = 50_000_000, 3_000_000_000
UNFINISHED = "unfinished-"
# The length of a hash, and the names of entries.
SIZE = 16
ENTRY = re.compile(r"[0-9a-f]{32}|unfinished-\w+")
# Names in the environment that tell a compiler what to do.
TELLING = re.compile(r"(?:CPATH|PATH|.*_PATH|GCC_.*|LANG|LC_.*)", re.DOTALL)
# What goes wrong with an entry that another version may have written, or nobody.
DAMAGED = (OSError, ValueError, TypeError, KeyError, IndexError, AttributeError, RecursionError, zlib.error, Left)
# The libraries that an answer depends on.
LIBRARIES = re.compile(r"/\S*/lib(?:fmtcanon|clang|LLVM)[^/\s]*$", re.MULTILINE)
# The macro of a compiler that knows no option for directives alone.
CLANG = "__clang__"


def digest(data: bytes) -> str:
    return hashlib.blake2b(data, digest_size=SIZE).hexdigest()


def cache_folder() -> Optional[str]:
    """Returns the folder for the entries, or None if there can't be one, or others may write there."""
    top = os.environ.get("XDG_CACHE_HOME", "")
    if not os.path.isabs(top):
        top = os.path.join(os.path.expanduser("~"), ".cache")
    folder = os.path.join(top, "fmtcanon", "check")
    try:
        os.makedirs(folder, mode=0o700, exist_ok=True)
        states = [os.lstat(it) for it in (os.path.dirname(folder), folder)]
    except OSError:
        return None
    is_own = all(stat.S_ISDIR(it.st_mode) and it.st_uid == os.geteuid() and not it.st_mode & 0o022 for it in states)
    return folder if is_own else None


def own_state() -> str:
    """Returns a hash of the version and the files of this module, which may be changed without a new version."""
    found = []
    for folder, _, names in os.walk(os.path.dirname(os.path.dirname(__file__))):
        states = ((it, os.stat(os.path.join(folder, it))) for it in names if it.endswith(".py"))
        found += [(os.path.basename(folder), name, it.st_size, it.st_mtime_ns) for name, it in states]
    return digest(repr((__version__, sorted(found))).encode())


def state_of(path: str) -> Tuple[int, ...]:
    """Returns the numbers that tell versions of a file apart; none if it isn't a file."""
    try:
        found = os.stat(path)
    except (OSError, ValueError):
        return ()
    is_file = stat.S_ISREG(found.st_mode)
    return (found.st_ctime_ns, found.st_mtime_ns, found.st_size, found.st_dev, found.st_ino) if is_file else ()


def is_settled(state: Sequence[int], since: int) -> bool:
    """Returns whether a file that has a state wasn't changed since a time, whose nanoseconds are given."""
    change = state[0] if state else 0
    return change < since - (SETTLED if change % 1_000_000_000 else SETTLED_BY_SECONDS)


def hash_of(path: str, state: Tuple[int, ...]) -> str:
    """Returns the hash of the bytes of a file that has a state, or nothing if it can't be read."""
    return known_hash(path, state) if is_settled(state, time.time_ns()) else known_hash.__wrapped__(path, state)


@functools.lru_cache(maxsize=10_000)
def known_hash(path: str, _state: Tuple[int, ...]) -> str:
    try:
        return digest(read_file(path).data)
    except (OSError, ValueError):
        return ""


def libraries() -> List[Tuple[str, List[int]]]:
    """Returns the libraries that are loaded, with their states."""
    try:
        maps = Path("/proc/self/maps").read_text(encoding="utf-8", errors="surrogateescape")
    except OSError:
        return []
    return [(it, list(state_of(it))) for it in sorted(set(LIBRARIES.findall(maps)))]


class ReadUnit(NamedTuple):
    """What the preprocessor makes of a file by a command, and the files in it."""

    text: bytes
    files: Set[str]


class Read(NamedTuple):
    """What a file is by each of its commands, in the short form; a hash of all that an answer about it is made from,
    without the question; the states of the files; and when they were first read.
    """

    units: Sequence[ReadUnit]
    hash: str
    states: Dict[str, Tuple[int, ...]]
    began: int

    def is_still(self) -> bool:
        """Returns whether no file changed since it was first read, and each is the same one."""
        return all(state_of(path) == it and is_settled(it, self.began) for path, it in self.states.items())


class Cache:
    """The entries in a folder."""

    def __init__(self, folder: str) -> None:
        self.folder = folder
        environment = sorted(it for it in os.environ.items() if TELLING.fullmatch(it[0]))
        self.front = repr((own_state(), getattr(cindex, "__file__", ""), os.getcwd(), environment))

    def answer(self, job: Job) -> Answer:
        """Returns what is kept for a file, or what is found now, which is kept if nothing changed meanwhile."""
        was = self.read(job)
        if was is None:
            return answer(job)
        if job.among and not any(job.among & it.files for it in was.units):
            return nothing_in(job.file)
        job = job._replace(among=frozenset())
        kept = self.get(self.path_of(job, asked_in(job), was.hash)) if job.commands else None
        if kept is not None:
            with contextlib.suppress(*DAMAGED):
                told = frozenset(it for one in was.units for it in job.told & one.files)
                return answer_in(job.file, kept)._replace(included=told)
        found = None
        with contextlib.suppress(Left), own_trouble():
            units = [read_unit(job, it) for it in job.commands]
            found = answer(job._replace(texts=[it.text for it in units]))
            # Where something is found, compilers ran again, and may have found other headers.
            if found.is_whole and self.is_as_it_was(job, was, units, bool(found.found)):
                self.put(self.path_of(job, asked_in(job), was.hash), fields_of(found))
        return found or answer(job)

    def read(self, job: Job) -> Optional[Read]:
        """Returns what a file is now, or None if a compiler can't preprocess it."""
        began = time.time_ns()
        with contextlib.suppress(Left), own_trouble():
            units = [read_unit(job, it, is_asked=True) for it in job.commands]
            states = {it: state_of(it) for it in sorted({job.file}.union(*(it.files for it in units)))}
            return Read(units, self.hash_of(job, units, states), states, began)
        return None

    def is_as_it_was(self, job: Job, was: Read, units: Sequence[ReadUnit], is_asked: bool = False) -> bool:
        """Returns whether units have the files of the short text, which didn't change; and if compilers are asked for
        that again, whether it is the same.
        """
        if [it.files for it in units] != [it.files for it in was.units] or not was.is_still():
            return False
        again = self.read(job) if is_asked else was
        return again is not None and again.hash == was.hash and was.is_still()

    def hash_of(self, job: Job, units: Sequence[ReadUnit], states: Dict[str, Tuple[int, ...]]) -> str:
        """Returns a hash of all that an answer about a file is made from, without the question."""
        own = "" if job.source is None else digest(job.source)
        parts: List[Any] = [self.front, job.file, own, [(it, hash_of(it, state)) for it, state in states.items()]]
        for command, unit in zip(job.commands, units):
            compiler = sorted(command.macros().items()), command.system_folders()
            parts += [command.folder, command.words, compiler, digest(without_folder(unit.text, job))]
        return digest(repr(parts).encode("utf-8", "surrogateescape"))

    def path_of(self, job: Job, asked: Any, hash: str) -> str:
        """Returns the path of the entry of a question about a file that has a hash."""
        settings = job.question.settings
        parts = hash, sorted(settings.functions.items()), sorted(settings.types.items()), asked
        return os.path.join(self.folder, digest(repr(parts).encode("utf-8", "surrogateescape")))

    def get(self, path: str) -> Any:
        """Returns what is kept in an entry, as JSON has it, or None if there is nothing."""
        with contextlib.suppress(*DAMAGED):
            entry = decoded(read_file(path, MOST_PACKED, os.O_NOFOLLOW).data)
            if entry is not None and all(list(state_of(it)) == state for it, state in entry["libraries"]):
                if time.time() - os.stat(path).st_mtime > DAY:
                    os.utime(path)
                return entry["answer"]
        return None

    def put(self, path: str, found: Any) -> None:
        """Keeps what is found in an entry."""
        self.write(path, encoded({"libraries": libraries(), "answer": found}))

    def write(self, path: str, data: bytes) -> None:
        """Writes an entry as a whole. If it can't be written, nothing is kept."""
        with contextlib.suppress(OSError):
            with tempfile.NamedTemporaryFile(prefix=UNFINISHED, dir=self.folder, delete=False) as stream:
                try:
                    stream.write(data)
                    stream.flush()
                    os.replace(stream.name, path)
                except BaseException:
                    os.unlink(stream.name)
                    raise

    def prune(self) -> None:
        """Removes the entries that weren't used for longest, if there are too many, and what other runs left."""
        found = sorted(self.entries())
        size = sum(it[1] for it in found)
        limit = LEFT if size > MOST else size
        for used, bytes, path in found:
            is_left = os.path.basename(path).startswith(UNFINISHED) and time.time() - used > OLD
            if size > limit or is_left:
                size -= bytes
                with contextlib.suppress(OSError):
                    os.unlink(path)

    def entries(self) -> Iterator[Tuple[float, int, str]]:
        """Yields when each entry was last used, its size and its path."""
        with contextlib.suppress(OSError), os.scandir(self.folder) as found:
            for one in filter(lambda it: ENTRY.fullmatch(it.name), found):
                with contextlib.suppress(OSError):
                    state = one.stat(follow_symlinks=False)
                    yield state.st_mtime, state.st_size, one.path


def short_text(command: CompileCommand, source: bytes) -> bytes:
    """Returns a text that says what the preprocessor makes of a source, and takes less time: by gcc without expanding
    macros, unless a directive has __COUNTER__.
    """
    if CLANG not in command.macros():
        with contextlib.suppress(Left):
            return command.preprocessed(source, "-fdirectives-only")
    return command.preprocessed(source, "-dD")


def read_unit(job: Job, command: CompileCommand, is_asked: bool = False) -> ReadUnit:
    """Returns what a file is by one of its commands, in the short form if only that is asked. Raises Left if the
    compiler can't preprocess it.
    """
    one = command_with(command, job.question.settings)
    source = original(command.file).source if job.source is None else job.source
    text = short_text(one, source) if is_asked else one.preprocessed(source)
    return ReadUnit(text, files_in(text, command.folder, job.question.settings.folder))


def asked_in(job: Job) -> Tuple[Any, ...]:
    """Returns what is asked about the formats of a file: also of functions of other files that hand theirs on. Where
    they do isn't said by the answer.
    """
    found = sorted((key, [it[:2] for it in listed]) for key, listed in job.question.settings.found.items())
    return [it.name for it in job.question.models], list(job.question.added), found


def without_folder(text: bytes, job: Job) -> bytes:
    """Returns a text without the name of the folder of this command, which each run has another one of."""
    folder = job.question.settings.folder
    return text.replace(os.fsencode(folder), b"") if folder else text


def encoded(entry: Dict[str, Any]) -> bytes:
    """Returns the bytes of an entry, with a hash in front."""
    data = zlib.compress(json.dumps(entry).encode(), 1)
    return bytes.fromhex(digest(data)) + data


def decoded(data: bytes) -> Optional[Dict[str, Any]]:
    """Returns the entry that bytes are, or None if they are damaged."""
    if bytes.fromhex(digest(data[SIZE:])) != data[:SIZE]:
        return None
    unpacked = zlib.decompressobj()
    found: Dict[str, Any] = json.loads(unpacked.decompress(data[SIZE:], MOST_OF_ONE))
    return found


def fields_of(answer: Answer) -> Dict[str, Any]:
    """Returns an answer as JSON has it."""
    found = [
        (key, dataclasses.asdict(it.finding), it.place, sorted(it.uses), sorted(it.lines))
        for key, it in answer.found.items()
    ]
    fixes = [(start, None if text is None else text.hex(), why) for start, (text, why) in answer.fixes.items()]
    counted = {"counts": answer.counts, "others": answer.others, "called": sorted(answer.called)}
    return {"found": found, "fixes": fixes, **counted}


def answer_in(file: str, fields: Dict[str, Any]) -> Answer:
    found = {
        key: Found(finding_in(finding), place, uses_in(uses), lines_in(lines))
        for key, finding, place, uses, lines in fields["found"]
    }
    fixes = {start: (None if text is None else bytes.fromhex(text), why) for start, text, why in fields["fixes"]}
    counts, others = (collections.Counter(fields[it]) for it in ("counts", "others"))
    return Answer(file, found, counts, others, fixes, called=frozenset(fields["called"]))


def uses_in(uses: Sequence[Any]) -> FrozenSet[CallLines]:
    return frozenset(CallLines(*it) for it in uses)


def lines_in(lines: Sequence[Any]) -> FrozenSet[Tuple[str, int, int]]:
    return frozenset((path, first, last) for path, first, last in lines)


def finding_in(fields: Dict[str, Any]) -> Finding:
    lists = {it: tuple(fields[it]) for it in ("end", "formats", "models") if fields[it] is not None}
    given: Dict[str, Any] = {**fields, **lists, "excerpts": tuple(Excerpt(*it) for it in fields["excerpts"])}
    return Finding(**given)


def answer_and_keep(cache: Optional[Cache], job: Job) -> Answer:
    """Checks a file, and keeps the answer if there is a cache."""
    found = cache.answer(job) if cache else answer(job)
    # The units that libclang parsed refer to themselves.
    gc.collect()
    return found


def answers_of(jobs: Iterable[Job], cache: Optional[Cache], count: int) -> Iterator[Answer]:
    """Yields the answers about files in their order, by several processes."""
    yield from in_order(functools.partial(answer_and_keep, cache), jobs, count, instead=answer_without)
    if cache:
        cache.prune()


def nothing_in(file: str) -> Answer:
    """Returns the answer about a file that isn't judged."""
    return Answer(file, {}, collections.Counter(), collections.Counter(), {})
