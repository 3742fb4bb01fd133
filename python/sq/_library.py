"""The library by ctypes: words and files in, the status and both texts out."""
import ctypes
import functools
import os
import threading
from pathlib import Path
from typing import Iterable, Mapping, NamedTuple, Sequence, Tuple, Union

Bytes = Union[str, bytes]
Named = Union[Mapping[str, bytes], Iterable[Tuple[Bytes, bytes]]]

HERE = Path(__file__).resolve().parent
# What a thread's rooms begin with, and the most that they keep from one call to the next.
SMALL_ROOM, LARGEST_KEPT = 1 << 16, 1 << 24


class Said(NamedTuple):
    """What sq says: its status, and its texts for standard output and standard error."""

    status: int
    out: bytes
    err: bytes


class _Bytes(ctypes.Structure):
    _fields_ = [("at", ctypes.c_char_p), ("len", ctypes.c_size_t)]


class _File(ctypes.Structure):
    _fields_ = [("name", _Bytes), ("bytes", _Bytes)]


class _Lengths(ctypes.Structure):
    _fields_ = [("out", ctypes.c_size_t), ("err", ctypes.c_size_t)]


class _Rooms(threading.local):
    """The rooms of a thread, which grow as texts need."""

    def __init__(self) -> None:
        self.make(SMALL_ROOM, SMALL_ROOM)

    def make(self, out: int, err: int) -> None:
        self.out, self.err = ctypes.create_string_buffer(out), ctypes.create_string_buffer(err)

    def hold(self, lengths: _Lengths) -> bool:
        return lengths.out <= len(self.out) and lengths.err <= len(self.err)

    def grow(self, lengths: _Lengths) -> None:
        self.make(max(lengths.out, len(self.out)), max(lengths.err, len(self.err)))

    def shrink(self) -> None:
        if len(self.out) + len(self.err) > LARGEST_KEPT:
            self.make(SMALL_ROOM, SMALL_ROOM)


_rooms = _Rooms()


def library_path() -> Path:
    """Where the library is: it may not be there."""
    named = os.environ.get("SQ_LIBRARY")
    if named:
        return Path(named)
    beside = HERE / "libsq.so"
    return beside if beside.exists() else HERE.parent.parent / "lib" / "libsq.so"


@functools.lru_cache(maxsize=None)
def _function():
    path = library_path()
    if not path.exists():
        raise ImportError(f"{path} is not there: `./sq library` makes it")
    function = ctypes.CDLL(str(path)).sq_call
    function.restype = ctypes.c_uint32
    function.argtypes = [ctypes.c_void_p, ctypes.c_size_t] * 4 + [ctypes.POINTER(_Lengths)]
    return function


def bytes_of(text: Bytes) -> bytes:
    return text.encode("utf-8", "surrogateescape") if isinstance(text, str) else bytes(text)


def _held(text: bytes) -> _Bytes:
    return _Bytes(text, len(text))


def call(words: Sequence[Bytes], files: Named = (), room: int = 0) -> Said:
    """What `sq` says to these words, where the files that they name are these: of two with one name the first counts.

    A text of more than 64 KiB, or of more than `room` bytes, costs a second call."""
    named = files.items() if isinstance(files, Mapping) else files
    its_words = [_held(bytes_of(word)) for word in words]
    its_files = [_File(_held(bytes_of(name)), _held(bytes_of(text))) for name, text in named]
    word_table = (_Bytes * max(len(its_words), 1))(*its_words)
    file_table = (_File * max(len(its_files), 1))(*its_files)
    function, rooms, lengths = _function(), _rooms, _Lengths()
    if room > len(rooms.out):
        rooms.make(room, len(rooms.err))
    while True:
        tables = word_table, len(its_words), file_table, len(its_files)
        status = function(*tables, rooms.out, len(rooms.out), rooms.err, len(rooms.err), ctypes.byref(lengths))
        if rooms.hold(lengths):
            break
        rooms.grow(lengths)
    said = Said(status, ctypes.string_at(rooms.out, lengths.out), ctypes.string_at(rooms.err, lengths.err))
    rooms.shrink()
    return said
