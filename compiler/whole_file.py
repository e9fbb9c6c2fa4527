"""Puts a text into a file, whole or not at all, as the program's own -o does."""

import contextlib
import os
import stat

from names import shown

# How many names are tried for the new file.
TRIES = 16


class NotPut(Exception):
    """The file is as it was; the text says why."""


def put(file: str, data: bytes) -> None:
    """Replaces the file by one with these bytes. It gets the permissions of the old file, but no set-user-ID or the like."""
    try:
        bits = bits_for(file)
        new, opened = created_beside(file)
        try:
            with open(opened, "wb") as it:
                it.write(data)
                it.flush()
                os.fsync(it.fileno())
                os.fchmod(it.fileno(), bits)
            os.rename(new, file)
        except BaseException:
            with contextlib.suppress(OSError):
                os.unlink(new)
            raise
    except OSError as error:
        raise NotPut(f"{shown(file)}: {error.strerror}; it is as it was") from None


def bits_for(file: str) -> int:
    """The nine permission bits that the file has, or those of a new one. What is not to be replaced raises NotPut."""
    try:
        old = os.lstat(file)
    except FileNotFoundError:
        mask = os.umask(0o077)
        os.umask(mask)
        return 0o666 & ~mask
    if stat.S_ISLNK(old.st_mode):
        raise NotPut(f"{shown(file)}: it is a symbolic link, and is not followed; name its target, {shown(os.readlink(file))}")
    if not stat.S_ISREG(old.st_mode):
        raise NotPut(f"{shown(file)}: it is no plain file; without -o the text goes to standard output")
    if old.st_uid != os.geteuid():
        raise NotPut(f"{shown(file)}: it belongs to another user, whose permissions a new file cannot have; it is as it was")
    return old.st_mode & 0o777


def created_beside(file: str) -> tuple[str, int]:
    """A new file beside this one, which nobody else may read yet: its name, and the number under which it is open."""
    for number in range(TRIES):
        new = f"{file}.{os.getpid()}.new" if number == 0 else f"{file}.{os.getpid()}.{number}.new"
        with contextlib.suppress(FileExistsError):
            return new, os.open(new, os.O_WRONLY | os.O_CREAT | os.O_EXCL | os.O_CLOEXEC, 0o600)
    raise NotPut(f"{shown(file)}: {TRIES} names for a new file beside it are taken, the first {shown(os.path.basename(file))}.{os.getpid()}.new")
