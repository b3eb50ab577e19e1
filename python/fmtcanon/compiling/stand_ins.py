"""The files that are read and replaced, and the stand-ins next to them, which take their place.

Others may be able to write to the folder, and put a link or another file where a stand-in is. So a stand-in is written,
given its owner and its rights by its descriptor, and its name is used only while it is still that file's.
"""

import errno
import os
import stat
import tempfile
from types import TracebackType
from typing import NamedTuple, Optional, Set, Type

from ..frame.interrupting import CLEANING
from ..source.files import read_file
from .left import Left
from .running import LOCK, check_stopping

PREFIX = ".fmtcanon-"


class Original(NamedTuple):
    """A file as it was read: its path without links, its bytes, and its state then."""

    path: str
    source: bytes
    state: os.stat_result

    def is_as_read(self) -> bool:
        now = original(self.path)
        same = (now.state.st_ino, now.state.st_mtime_ns) == (self.state.st_ino, self.state.st_mtime_ns)
        return same and now.source == self.source


def original(path: str) -> Original:
    """Reads a file. Raises `OSError` for a link, and for what isn't a regular file."""
    return Original(path, *read_file(path, flags=os.O_NOFOLLOW))


def is_stand_in(path: str) -> bool:
    """Returns whether a file is a stand-in: one that a killed run left is not a source."""
    return os.path.basename(path).startswith(PREFIX)


class StandIn:
    """An empty file next to another, with an ending that compilers take alike. It is removed unless it was renamed."""

    # Those that are there, to be removed when the command ends early.
    existing: Set["StandIn"] = set()

    def __init__(self, path: str) -> None:
        folder, self.own = os.path.split(path)
        with LOCK:
            check_stopping()
            ending = "." + self.own.rpartition(".")[2]
            self.handle, self.path = tempfile.mkstemp(prefix=PREFIX, suffix=ending, dir=folder)
            self.name = os.path.basename(self.path)
            self.folder = os.open(folder, os.O_RDONLY | os.O_DIRECTORY)
            self.existing.add(self)

    def __enter__(self) -> "StandIn":
        return self

    def __exit__(
        self, kind: Optional[Type[BaseException]], error: Optional[BaseException], trace: Optional[TracebackType]
    ) -> None:
        self.remove()
        self.existing.discard(self)
        os.close(self.handle)
        os.close(self.folder)

    def write(self, data: bytes) -> None:
        """Replaces the bytes of the file."""
        os.ftruncate(self.handle, 0)
        done = 0
        while done < len(data):
            done += os.pwrite(self.handle, data[done : done + (1 << 20)], done)

    def is_in_place(self) -> bool:
        """Returns whether its name is still that of the file."""
        try:
            found = os.stat(self.name, dir_fd=self.folder, follow_symlinks=False)
        except FileNotFoundError:
            return False
        return os.path.samestat(found, os.fstat(self.handle))

    def checked(self) -> str:
        """Returns the path. Raises Left if another file is there."""
        if not self.is_in_place():
            raise Left("another file took the place of its copy: somebody else writes to its folder")
        return self.path

    def take_rights(self, file: Original) -> None:
        """Gives it the owner, the rights and the attributes of a file."""
        mine = os.fstat(self.handle)
        try:
            if (file.state.st_uid, file.state.st_gid) != (mine.st_uid, mine.st_gid):
                os.fchown(self.handle, file.state.st_uid, file.state.st_gid)
            os.fchmod(self.handle, stat.S_IMODE(file.state.st_mode))
        except PermissionError as error:
            raise Left("its owner can't be kept") from error
        if hasattr(os, "listxattr"):
            self.take_attributes(file.path)

    def take_attributes(self, path: str) -> None:
        """Copies the extended attributes that this file system has and that the caller may set."""
        for name in os.listxattr(path, follow_symlinks=False):
            try:
                os.setxattr(self.handle, name, os.getxattr(path, name, follow_symlinks=False))
            except OSError as error:
                if error.errno not in (errno.EPERM, errno.ENOTSUP, errno.ENODATA, errno.EINVAL, errno.EACCES):
                    raise

    def rename(self) -> None:
        """Puts it in the place of the file next to it. Raises Left if another file got there."""
        self.checked()
        os.replace(self.name, self.own, src_dir_fd=self.folder, dst_dir_fd=self.folder)
        self.name = self.own
        self.checked()

    def remove(self) -> None:
        """Removes the file, unless it was renamed or its name is another file's."""
        if self.name != self.own and self.is_in_place():
            os.unlink(self.name, dir_fd=self.folder)

    @classmethod
    def remove_all(cls) -> None:
        """Removes those that are there, once no other can come."""
        for one in list(cls.existing):
            try:
                one.remove()
            except OSError:
                # It is being removed.
                pass


CLEANING.append(StandIn.remove_all)
