"""Read files with a limit, write them completely or not at all, and compute their SHA-256."""
from __future__ import annotations

import contextlib
import errno
import functools
import hashlib
import os
import select
import shutil
import stat
import sys
import tempfile
import threading
from typing import BinaryIO, Iterator, NamedTuple, Tuple, TypeVar

from .command_line import Stop


STANDARD = "-"  # standard input or output, as the name of a file
READ_SIZE = 1 << 20  # maximum number of bytes to read at once
FORMULA_PREFIXES = ("-", "=", "+", "@")  # first characters of options and of spreadsheet formulas
FILE_KINDS = ((stat.S_ISDIR, "a folder"), (stat.S_ISFIFO, "a pipe"), (stat.S_ISCHR, "a device"),
              (stat.S_ISBLK, "a device"), (stat.S_ISLNK, "a link"), (stat.S_ISSOCK, "a socket"))

KINDS_BY_ERROR = {errno.ENXIO: "a socket", errno.ELOOP: "a link", errno.EISDIR: "a folder"}


class DamagedFile(Exception):
    """Raised if damaged data can't be read further; the message says where and why."""


InputType = TypeVar("InputType", bound="Input")


class Input:
    """A file that may still be written while it is read. The name `-` means standard input. Error
    messages contain the name as typed."""

    is_stream = True  # more data may arrive

    def __init__(self, name: str) -> None:
        self.name = name
        self.file = self.open()

    def open(self) -> BinaryIO:
        """Open the file for reading, without a buffer."""
        is_standard = self.name == STANDARD
        with add_name_to_errors(self.name):
            return open(0 if is_standard else self.name, "rb", buffering=0,
                        closefd=not is_standard)

    def __enter__(self: InputType) -> InputType:
        return self

    def __exit__(self, *_: object) -> None:
        self.file.close()

    def read(self, size: int = READ_SIZE, /) -> bytes:
        """Return the available bytes without waiting until `size` bytes have arrived. Return at
        least one byte, except at the end of the file."""
        with add_name_to_errors(self.name):
            data: bytes | None = self.file.read(size)
            while data is None:  # nothing has arrived yet
                if not self.is_stream:
                    raise Stop(f"{self.name} has no end: give a file")
                select.select([self.file], [], [])
                data = self.file.read(size)
        return data


@contextlib.contextmanager
def add_name_to_errors(name: str) -> Iterator[None]:
    """Set the file name of an `OSError` to the name that the user typed."""
    try:
        yield
    except OSError as error:
        error.filename, error.filename2 = name, None
        raise


def describe_kind(mode: int) -> str | None:
    """Return a description such as `a folder` for a file mode. Return `None` for a regular file."""
    return next((words for is_kind, words in FILE_KINDS if is_kind(mode)), None)


class File(Input):
    """A regular file to read, or a pipe if that is allowed. Other kinds of files are refused. The
    file is opened without blocking and checked afterwards, because another file can take its name
    at any time. If the file is a pipe, wait until a program writes to it."""

    def __init__(self, name: str, may_be_pipe: bool = False, is_followed: bool = True) -> None:
        self.flags = os.O_RDONLY | os.O_NONBLOCK | os.O_NOCTTY | os.O_CLOEXEC
        self.flags |= 0 if is_followed else os.O_NOFOLLOW
        super().__init__(name)
        try:
            self.look(may_be_pipe)
        except BaseException:
            self.file.close()
            raise

    def open(self) -> BinaryIO:
        """Open the file without blocking; raise `Stop` for a folder, a link or a socket."""
        if self.name == STANDARD:
            return super().open()
        try:
            with add_name_to_errors(self.name):
                return open(self.name, "rb", buffering=0, opener=lambda name, _: os.open(
                    name, self.flags))
        except OSError as error:
            kind = KINDS_BY_ERROR.get(error.errno or 0)
            if kind is None:
                raise
            raise Stop(f"{self.name} is {kind}") from None

    def look(self, may_be_pipe: bool) -> None:
        """Raise `Stop` unless this is a regular file or an allowed pipe."""
        kind = describe_kind(os.fstat(self.file.fileno()).st_mode)
        self.is_stream = kind is not None
        is_endless = kind not in ("a pipe", "a socket") and not self.file.isatty()
        if kind and (is_endless or not may_be_pipe):
            raise Stop(f"{self.name} is {kind}: give a file{' or a pipe' * may_be_pipe}")
        if kind and self.name != STANDARD:
            ready = select.poll()
            ready.register(self.file, select.POLLIN)
            ready.poll()  # wait until a program writes to the pipe


def read_first_bytes(name: str, most: int, may_be_pipe: bool = False,
                     is_followed: bool = True) -> bytes:
    """Return the first `most` bytes of a file, or all bytes if it has fewer."""
    data, left = [], most
    with File(name, may_be_pipe, is_followed) as file:
        while left and (piece := file.read(min(left, READ_SIZE))):
            data.append(piece)
            left -= len(piece)
    return b"".join(data)


def read_bounded_bytes(name: str, most: int, may_be_pipe: bool = False, is_followed: bool = True) \
        -> bytes:
    """Return all bytes of a file; raise `Stop` if it has more than `most` bytes."""
    data = read_first_bytes(name, most + 1, may_be_pipe, is_followed)
    if len(data) > most:
        raise Stop(f"{name} has more than {most:,} bytes")
    return data


def read_chunks(name: str, may_be_pipe: bool = False) -> Iterator[bytes]:
    """Yield the contents of a file in chunks, as they become available."""
    with File(name, may_be_pipe) as file:
        yield from iter(file.read, b"")


Stamp = Tuple[int, ...]


def make_stamp(info: os.stat_result) -> Stamp:
    """Return a stamp of a file, which changes if the file is written to or replaced."""
    return info.st_dev, info.st_ino, info.st_size, info.st_mtime_ns, info.st_ctime_ns


def read_stamp(path: str) -> Stamp | None:
    """Return the stamp of a regular file. If the path is a link, the stamp covers the link and its
    target. Return `None` for any other kind of file."""
    with contextlib.suppress(OSError, ValueError):
        link, info = os.lstat(path), os.stat(path)
        if path != STANDARD and stat.S_ISREG(info.st_mode):
            return make_stamp(link) + make_stamp(info)
    return None


def make_safe_name(name: str) -> str:
    """Return a file name, with `./` in front if it could be mistaken for an option or a formula.
    """
    return os.path.join(".", name) if name.startswith(FORMULA_PREFIXES) else name


def is_utf_8(name: str) -> bool:
    """Return whether a file name is valid UTF-8."""
    try:
        name.encode()
    except UnicodeEncodeError:
        return False
    return True


# Output files are written completely or not at all, and never replace an input file. Links in a
# folder of results are not followed.

STANDARD_OUTPUTS = {STANDARD, "/dev/stdout", "/dev/fd/1", "/proc/self/fd/1"}
TEMPORARY_PREFIX = ".subttx-"  # prefix of the name of a file that is not complete yet


class OutputIsInput(Stop):
    """Raised if an output file is also an input file. The input file is left unchanged."""


class Inputs:
    """The input files. No output file may replace one of them, or a link to one, under any name.
    There may be thousands on a remote disk, so they are only examined if an output file exists."""

    def __init__(self, *names: str | None) -> None:
        self.names = [name for name in names if name]

    @functools.cached_property
    def known(self) -> dict[tuple[int, int], str]:
        """Return the names of the input files by device and inode."""
        return {identity: name for name in self.names for identity in find_identities(name, True)}

    def refuse(self, path: str, is_followed: bool) -> None:
        """Raise `OutputIsInput` if writing to `path` would change an input file or remove its name.
        Examine a matching input file again: if it was removed, another file may have its inode."""
        for identity in find_identities(path, is_followed):
            if identity in self.known and identity in find_identities(self.known[identity], True):
                raise OutputIsInput(f"{path} is also an input: give another name")


def find_identities(name: str, is_followed: bool) -> set[tuple[int, int]]:
    """Return the device and inode of a file and, if links are followed, of a link's target."""
    found = set()
    for follow in (False, True)[:1 + is_followed]:
        with contextlib.suppress(OSError, ValueError):
            info = os.fstat(0) if name == STANDARD else os.stat(name, follow_symlinks=follow)
            if name != STANDARD or stat.S_ISREG(info.st_mode):
                found.add((info.st_dev, info.st_ino))
    return found


NO_INPUTS = Inputs()


def refuse_output_name(name: str) -> None:
    """Raise `Stop` if no output file can have this name. Call this before judging begins."""
    target = os.path.realpath(name)
    if name != STANDARD and not os.path.isdir(os.path.dirname(target)):
        raise Stop(f"{name}: {os.strerror(errno.ENOENT)}")
    if name != STANDARD and os.path.isdir(target):
        raise Stop(f"{name}: {os.strerror(errno.EISDIR)}")


@contextlib.contextmanager
def open_output(path: str) -> Iterator[BinaryIO]:
    """Open an output file that the user named, following links. Replace an earlier file only after
    all data are written without an error. Write directly to a pipe, a device or standard output."""
    if path in STANDARD_OUTPUTS:
        with open_standard_output() as file:
            yield file
    elif not is_replaced(path):
        with add_name_to_errors(path):
            device = open(path, "wb")
        with close_after_writing(device, path):
            yield device
    else:
        yield from open_replacement(path, os.path.realpath(path))


@contextlib.contextmanager
def open_result(path: str, is_stored: bool = False) -> Iterator[BinaryIO]:
    """Open an output file in a folder of results. Replace a link instead of following it, since
    other users may write to the folder. If `is_stored`, make the file survive a power failure."""
    yield from open_replacement(path, path, is_stored)


def is_replaced(path: str) -> bool:
    """Return whether `open_output` replaces a file at `path`: false for a pipe, a device or
    standard output."""
    return path not in STANDARD_OUTPUTS and (
        not os.path.exists(path) or stat.S_ISREG(os.stat(path).st_mode))


@contextlib.contextmanager
def open_standard_output() -> Iterator[BinaryIO]:
    """Open standard output in binary mode, after flushing buffered text."""
    sys.stdout.flush()
    with open(sys.stdout.fileno(), "wb", closefd=False) as file:
        yield file


def open_replacement(path: str, target: str, is_stored: bool = False) -> Iterator[BinaryIO]:
    """Open a temporary file, and rename it to `target` when it is complete. Error messages name
    `path`. If `is_stored`, ensure that the file survives a power failure."""
    name = make_temporary_name(os.path.dirname(target), TEMPORARY_PREFIX)
    try:
        with add_name_to_errors(path):
            file = open(name, "xb")  # x: fail if there is a link with that name
        with close_after_writing(file, path):
            yield file
            if is_stored:
                file.flush()
                os.fsync(file.fileno())
        with add_name_to_errors(path):
            os.replace(name, target)
        if is_stored:
            sync_folder(os.path.dirname(target))
    finally:
        with contextlib.suppress(OSError):  # after the rename, the temporary file no longer exists
            os.unlink(name)


def sync_folder(folder: str) -> None:
    """Flush the entries of a folder to disk, if its file system supports that."""
    handle = os.open(folder, os.O_RDONLY | os.O_DIRECTORY | os.O_CLOEXEC)
    with contextlib.suppress(OSError):
        os.fsync(handle)
    os.close(handle)


def make_temporary_name(folder: str, begin: str) -> str:
    """Return a random path in a folder. The path is known before the file exists, so that a signal
    can't leave the file behind."""
    return os.path.join(folder, begin + os.urandom(8).hex())


@contextlib.contextmanager
def make_temporary_folder(begin: str) -> Iterator[str]:
    """Make a temporary folder whose name starts with `begin`. Remove it when the context ends, even
    after a signal."""
    path = make_temporary_name(tempfile.gettempdir(), begin)
    try:
        os.mkdir(path, 0o700)
        yield path
    finally:
        try:
            shutil.rmtree(path, ignore_errors=True)
        finally:  # try again in case a signal interrupted the removal
            shutil.rmtree(path, ignore_errors=True)


@contextlib.contextmanager
def close_after_writing(file: BinaryIO, path: str) -> Iterator[None]:
    """Close a file when the context ends. An `OSError` without a file name gets the name `path`."""
    try:
        with file:
            yield
    except OSError as error:
        error.filename = path if error.filename is None else error.filename
        raise


BUFFER_SIZE = 1 << 18  # size in bytes of the buffer used to compute a file's SHA-256


class SummedFile(NamedTuple):
    """The name of a file as the user typed it, its size in bytes and its SHA-256."""

    name: str
    size: int
    sha256: str


class BackgroundChecksum:
    """A thread that computes the SHA-256 of a file."""

    def __init__(self, name: str) -> None:
        self.name, self.found = name, list[SummedFile]()
        self.reason: Exception | None = None
        self.thread = threading.Thread(target=self.work, daemon=True)
        with contextlib.suppress(RuntimeError):  # no memory for another thread
            self.thread.start()

    def work(self) -> None:
        """Compute the SHA-256. If that fails, keep the error so that `result` can raise it."""
        try:
            self.found.append(sum_file(self.name, self.name))
        except (Stop, OSError) as reason:
            self.reason = reason

    def result(self) -> SummedFile:
        """Wait for the thread, and return the size and SHA-256 of the file or raise its error."""
        if self.thread.ident is None:  # the thread was not started
            self.work()
        else:
            self.thread.join()
        if self.reason:
            raise self.reason
        return self.found[0]


def sum_file(path: str, name: str) -> SummedFile:
    """Return the size and SHA-256 of the file at `path`, with the name that the user typed."""
    digest, buffer, size = hashlib.sha256(), memoryview(bytearray(BUFFER_SIZE)), 0
    with File(path) as file:
        while count := file.file.readinto(buffer):  # type: ignore[attr-defined]
            digest.update(buffer[:count])
            size += count
    return SummedFile(name, size, digest.hexdigest())
