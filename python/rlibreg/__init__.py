"""A registry of shared libraries that survives power cuts, and a binder of programs.

    with rlibreg.Registry('disk', read_write=True) as registry:
        registry.install(Path('libone.so'))
        image = registry.bind(Path('program'), 1 << 40)

The module calls librlibreg.so by ctypes. docs/PYTHON.md introduces the module. rlibreg.h describes
what each call does, its limits and its refusals.
"""

from __future__ import annotations

import binascii
import ctypes
import enum
import errno
import math
import operator
import os
import re
import threading
import time
from typing import (Any, Callable, Iterable, Iterator, List, Literal, NamedTuple, NoReturn,
                    Tuple, TypeVar, Union)

from . import _calls
from ._calls import library as _library

__all__ = ['Binding', 'Bindings', 'BoundObject', 'Busy', 'Closed', 'Error', 'Finding', 'Image',
           'Info', 'Library', 'Listing', 'Locked', 'Object', 'Permissions', 'Put', 'Refusal',
           'Registry', 'Segment', 'Status', 'SystemFault', 'Update', 'format', 'upgrade',
           'version']

PathName = Union[str, bytes, 'os.PathLike[str]', 'os.PathLike[bytes]']
Content = Union[bytes, bytearray, memoryview, str, 'os.PathLike[str]', 'os.PathLike[bytes]']
Wait = Union[bool, float]
Put = Literal['installed', 'replaced', 'unchanged']

_MOST = 1 << 24  # the maximum length of a file; a longer one is refused
_DUMPED = 1 << 15  # the maximum number of a library's bytes in one piece of a dump


class Status(enum.IntEnum):
    """The statuses of calls, with the names and numbers of rlibreg.h."""

    DONE = 0
    BUFFER_TOO_SMALL = 1
    BAD_ARGUMENT = 2
    SYSTEM = 3
    LOCKED = 4
    READ_ONLY = 5
    BAD_PROGRAM = 101
    BAD_BASE = 102
    MISSING = 103
    ADDRESS_TOO_HIGH = 104
    UNDEFINED = 105
    BAD_FILE = 201
    ALREADY_INSTALLED = 202
    NOT_INSTALLED = 203
    IN_PRELOADS = 204
    REPEATED_PRELOAD = 205
    TOO_MANY_PRELOADS = 206
    DEVICE = 301
    REOPEN = 302
    NOT_FORMATTED = 303
    ALREADY_FORMATTED = 304
    DAMAGED = 305
    BAD_GEOMETRY = 306
    FULL = 307
    FRAGMENTED = 308
    TOO_MANY = 309
    GENERATION_END = 310
    OUT_OF_MEMORY = 311
    OLD_FORMAT = 312
    NO_ENTRY = 401
    STATIC_PIE = 402
    PRE_INITIALIZERS = 403
    INITIALIZERS = 404
    FINALIZERS = 405
    # The number 406 isn't used again.
    TOO_MANY_HEADERS = 407
    WRITABLE_CODE = 408
    NO_PAGES = 409


class Permissions(enum.IntFlag):
    """The permissions of a segment's memory."""

    EXECUTE = 1
    WRITE = 2
    READ = 4


class Library(NamedTuple):
    """An installed library: its SONAME, and the length of its file in bytes."""

    name: str
    length: int


class Listing(NamedTuple):
    """The libraries and preloads of a registry, in the order of installation, and the number of changes since the
    disk was formatted."""

    generation: int
    libraries: list[Library]
    preloads: list[str]


class Info(NamedTuple):
    """The numbers of a registry as a whole."""

    version: int  # the version of the disk's layout: 2
    sectors: int  # the number of the disk's sectors
    generation: int  # the number of changes that the registry has accepted
    libraries: int  # the number of installed libraries
    preloads: int  # the number of preloads
    unused_sectors: int  # the number of unused sectors; some are reserved for catalogues
    unused_runs: int  # the number of runs of unused sectors
    largest: int  # the maximum length of a library of a new name now, or 0


class Finding(NamedTuple):
    """The finding for an installed library, in the words of rlibreg-tool."""

    number: int  # 0 if sound; n of the first test En that refuses its file; else 100
    name: str  # 'Sound'; the name of a test, such as 'E2 BadMagic'; or 'OtherName'
    text: str  # 'ok'; a test, such as 'damaged E2 BadMagic'; or 'damaged OtherName'


Findings = List[Tuple[str, Finding]]


class Segment(NamedTuple):
    """A segment of an image: the address of its first byte, its permissions, and its bytes."""

    address: int
    permissions: Permissions
    data: memoryview


class Object(NamedTuple):
    """The program of an image, or one of its libraries, with its own segments. Addresses are those
    of the image; `headers` and `dynamic` are 0 if no segment has them."""

    base: int  # the number that is added to the addresses of its file
    name: str  # a library's SONAME; the program's is '/program'
    segments: list[Segment]
    headers: int  # the address of its program headers
    header_count: int  # the number of program headers in its file
    dynamic: int  # the address of its dynamic section
    entry: int  # the sum of its base and its file's e_entry, modulo 2^64


class Image(NamedTuple):
    """A bound program in memory: the segments of the program and its libraries, from low addresses to high ones; and
    these objects in load order, the program first."""

    segments: list[Segment]
    objects: list[Object]


class Binding(NamedTuple):
    """A symbol to which a relocation of an object refers, and the symbol to which it is bound."""

    symbol: str
    object: str | None  # the name of the object that defines it, or None
    address: int | None  # 0 if weak and not defined; None if undefined (B5)


class BoundObject(NamedTuple):
    """An object, the libraries that it needs, and the bindings of its symbols."""

    name: str  # a library's SONAME; the program's is '/program'
    base: int | None  # None if a name is missing, because then no object has an address
    needs: list[str]
    missing: list[str]  # the needed libraries that aren't installed (B3)
    bindings: list[Binding]


class Bindings(NamedTuple):
    """The bindings of the symbols of a program and its libraries, object by object in load order. If names are
    missing, it has only the objects that were found."""

    status: Status  # the status of a bind: DONE, MISSING or UNDEFINED
    objects: list[BoundObject]
    text: str  # the text that rlibreg-tool prints


# ---- Errors


class Error(Exception):
    """A call whose status isn't DONE."""

    number: int = Status.BAD_ARGUMENT  # a Status, as in rlibreg.h
    name: str = ''  # for example 'B3 Missing'
    text: str = ''  # the program's line, such as 'refused B3 Missing libtwo.so libone.so'
    file_refusal: int = 0  # if a file is refused (B1, C1): n of the first test En
    file_refusal_name: str = ''  # the name of that test, such as 'E1 TooShort'
    errno: int = 0  # if a device failed (S1): the reason
    change: int | None = None  # in an update: the number of the refused change, from 0

    def __str__(self) -> str:
        return self.text or super().__str__()


class Refusal(Error):
    """The registry refuses a call with a number that the program's manual explains (B1 to B5, C1 to C6, S1 to S12),
    or a bound program has no executable file. Nothing was done, except with S1 (Device): then a change may have been
    made or not, and the registry has to be opened again."""


class Locked(Error):
    """Another process, or another Registry of this process, has locked the file."""


class Busy(Error, RuntimeError):
    """The handler of a signal made a call while a call of the same Registry was running."""


class Closed(Error, ValueError):
    """The registry has already been closed."""


class SystemFault(OSError, Error):
    """A call of the system failed, before anything was done. If Python has a class for its errno, the error is of
    that class too, like the classes below."""


class FileNotFound(SystemFault, FileNotFoundError):
    pass


class FileExists(SystemFault, FileExistsError):
    pass


class PermissionDenied(SystemFault, PermissionError):
    pass


class IsADirectory(SystemFault, IsADirectoryError):
    pass


class NotADirectory(SystemFault, NotADirectoryError):
    pass


_FAULTS = {kind.__bases__[1]: kind for kind in SystemFault.__subclasses__()}


def _error(kind: type[Error], number: int, *words: object) -> Error:
    error = kind(*words)
    error.number = Status(number)
    error.name = _library.rlibreg_status_name(number).decode()
    return error


def version() -> int:
    """Returns the version of the shared library: 10,000 * major + 100 * minor + patch."""
    return int(_library.rlibreg_version())


# ---- What is given to calls


def _content(file: Content) -> bytes:
    """Returns the bytes of a library or a program: `file` itself, or the bytes of the file with this path. If that
    file is too long, returns only as many bytes as are needed to show this."""
    if isinstance(file, (str, os.PathLike)):
        with open(file, 'rb') as stream:
            length = os.fstat(stream.fileno()).st_size or _MOST  # a path that isn't that of a file has no length
            return stream.read(min(length, _MOST) + 1)
    return file if isinstance(file, bytes) else bytes(memoryview(file))


def _word(word: PathName) -> bytes:
    """Returns a path or a name for C. The text must have no byte 0, because C would end the text at this
    byte."""
    given = os.fsencode(word)
    if b'\0' in given:
        raise ValueError('embedded null byte')
    return given


def _words(names: Iterable[str]) -> list[bytes]:
    """Returns the names of preloads in the format for C."""
    if isinstance(names, (str, bytes)):
        raise TypeError('preloads must be a list of names')
    return [_word(name) for name in names]


def _unsigned(value: int, bits: int) -> int:
    """Returns a number that fits into C's type. Refuses any other number, because ctypes would take it modulo
    2^bits."""
    number = operator.index(value)
    if not 0 <= number < 1 << bits:
        raise OverflowError(f'{number} is not an unsigned {bits}-bit number')
    return number


def _seconds(wait: Wait) -> float:
    """Returns the number of seconds for which a call waits for a lock."""
    if not isinstance(wait, (int, float)):
        raise TypeError('wait must be True, False, or a number of seconds')
    if not wait >= 0:
        raise ValueError('wait must not be negative')
    return math.inf if wait is True else wait


# ---- Calls

_PIECE = 0.1  # seconds that the library waits at once, if a limit keeps handlers from running


_Given = TypeVar('_Given')


_forks = 0  # the number of forks between the first process and this one


def _count_fork() -> None:
    global _forks
    _forks += 1


os.register_at_fork(after_in_child=_count_fork)


def _process() -> tuple[int, int]:
    """Returns the identity of this process. If a child is process 1 of another process namespace, it can have its
    parent's process number. For this reason the identity also has the number of forks."""
    return os.getpid(), _forks


class _Turn(threading.local):
    """The turn of a thread: whether the thread is within a call."""

    is_taken = False


class _Handle:
    """A struct rlibreg. Only one call of it is made at a time, and only in the process that made it.

    Python may run the handler of a signal between any two steps of the main thread, for example between a call and
    the reading of its text. For this reason a thread takes its turn before it waits for the lock, and keeps the turn
    until it has read the whole answer. If a handler finds the turn taken, it makes no call, and leaves a `close` to
    the call that it interrupts."""

    def __init__(self, path: PathName) -> None:
        self.path = path
        self.process = _process()
        self.lock = threading.Lock()
        self.turn = _Turn()
        self.is_closed = False
        self.struct = _library.rlibreg_create()
        if not self.struct:
            raise MemoryError

    def close(self) -> None:
        """Closes the struct. In a child of fork, this closes the child's file, and the parent keeps its lock. In
        such a child, `lock` isn't taken, because a thread that the child doesn't have may hold it."""
        self.is_closed = True
        if self.turn.is_taken:
            return
        self.turn.is_taken = True
        try:
            if _process() != self.process:
                self.give_back()
            else:
                with self.lock:
                    self.give_back()
        finally:
            self.turn.is_taken = False

    def give_back(self) -> None:
        pointer, self.struct.value = self.struct.value, None
        _library.rlibreg_close(pointer)

    def refusal(self) -> Error | None:
        """Returns the reason why no call can be made, or None."""
        if _process() != self.process:
            return _error(Error, Status.BAD_ARGUMENT, 'the registry was opened by another process')
        if self.is_closed:
            return _error(Closed, Status.BAD_ARGUMENT, 'the registry is closed')
        if self.turn.is_taken:
            return _error(Busy, Status.BAD_ARGUMENT, 'the registry is in another call')
        return None

    def do(self, work: Callable[[], Union[Error, _Given]]) -> _Given:
        """Runs `work`, which makes calls by `ask`, without a call of another thread between them. Releases the turn
        and the lock before it raises the error that `work` returns. Otherwise, before Python 3.11, a handler could
        run while an exception passes through them, and they would stay taken."""
        error = self.refusal()
        if error:
            raise error
        self.turn.is_taken = True
        try:
            with self.lock:
                given = work()
        finally:
            self.turn.is_taken = False
            if self.is_closed:  # a handler has requested it meanwhile
                self.close()
        if isinstance(given, Error):
            raise given
        return given

    def call(self, name: str, *words: object) -> None:
        """Makes a call by `ask`, and raises its error."""
        self.do(lambda: self.ask(name, *words))

    def open(self, name: str, *words: object, flags: int, wait: Wait) -> None:
        """Makes a call that locks the file, and waits for the lock according to `wait`. Without a limit, a signal
        ends the library's wait; with a limit, it doesn't. If the thread would wait for itself, the library answers
        before the limit."""
        seconds = _seconds(wait)
        flags |= _calls.WAIT if seconds else 0
        if seconds in (0, math.inf):
            return self.call(name, *words, flags)
        end = time.monotonic() + seconds
        while True:
            begun = time.monotonic()
            piece = max(0, min(end - begun, _PIECE))
            _library.rlibreg_set_wait_limit(self.struct, math.ceil(piece * 1000))
            try:
                return self.call(name, *words, flags)
            except Locked:
                now = time.monotonic()
                if now >= end or now < begun + piece:
                    raise

    def ask(self, name: str, *words: object) -> Error | None:
        """Makes a call, and returns its error or None. If a signal ends the call while it waits for a lock, runs the
        signal's handler, and makes the call again."""
        if self.is_closed:
            return _error(Closed, Status.BAD_ARGUMENT, 'the registry is closed')
        function = getattr(_library, f'rlibreg_{name}')
        while True:
            status = function(self.struct, *words)
            why = _library.rlibreg_errno(self.struct)
            if status != Status.SYSTEM or why != errno.EINTR:
                return self.error(status, why) if status else None

    def error(self, status: int, why: int) -> Error:
        if status == Status.SYSTEM:
            text = os.strerror(why)
            kind = _FAULTS.get(type(OSError(why, text)), SystemFault)
            return _error(kind, status, why, text, self.path)
        error = _error(Refusal if status > 100 else Locked if status == Status.LOCKED else Error,
                       status, _library.rlibreg_status_name(status).decode())
        error.text = _library.rlibreg_text(self.struct).decode('ascii', 'replace').rstrip('\n')
        error.file_refusal = _library.rlibreg_last_answer(self.struct).contents.file_refusal
        if error.file_refusal:
            named = _library.rlibreg_file_refusal_name(error.file_refusal)
            error.file_refusal_name = named.decode()
        if status == Status.DEVICE:
            error.errno = why
        return error


def _list(handle: _Handle) -> Error | Listing:
    """Returns a listing in Python's own memory."""
    given = _calls.Listing()
    try:
        error = handle.ask('get_listing', ctypes.byref(given))
        if error:
            return error
        entries = given.entries[:given.libraries + given.preloads]
        names = [ctypes.string_at(given.names + it.name, it.name_length).decode() for it in entries]
        lengths = [it.file_length for it in entries[:given.libraries]]
        libraries = [Library(*it) for it in zip(names, lengths)]
        return Listing(given.generation, libraries, names[given.libraries:])
    finally:
        _library.rlibreg_listing_free(ctypes.byref(given))


def _given(handle: _Handle, call: str, *words: object) -> Tuple[Error | None, bytes]:
    """Returns a call's error and its data, in Python's own memory."""
    given, length = _calls.POINTER(), _calls.SIZE()
    try:
        error = handle.ask(call, *words, ctypes.byref(given), ctypes.byref(length))
        data = _calls.array(length.value).from_address(given.value).raw if given.value else b''
        return error, bytes(data)
    finally:
        _calls.free(given)


def _file(handle: _Handle, name: bytes) -> Error | bytes:
    """Returns a library's bytes."""
    error, data = _given(handle, 'get_file', name)
    return error or data


def _executable(handle: _Handle, program: bytes, base: int) -> Error | bytes:
    error, data = _given(handle, 'get_executable', program, len(program), base)
    return error or data


def _bindings(handle: _Handle, program: bytes, base: int) -> Error | Bindings:
    error, data = _given(handle, 'get_bindings', program, len(program), base)
    if error and not data:
        return error
    text = data.decode('ascii')
    return Bindings(Status(error.number if error else Status.DONE), _objects(text), text)


def _name(word: str) -> str:
    """Returns the name that the program's text encodes. The text has two digits for a byte that
    isn't plain, and an e for an empty name."""
    if word == '\\e':
        return ''
    spelt = re.sub(r'\\x(..)', lambda it: chr(int(it[1], 16)), word)
    return spelt.encode('latin-1').decode('utf-8', 'surrogateescape')


def _objects(text: str) -> list[BoundObject]:
    """Returns the objects that a text of bindings lists."""
    objects: list[BoundObject] = []
    for line in text.splitlines():
        what, *words = line.split(' ')
        if what == 'object':
            objects.append(BoundObject(_name(words[1]), int(words[0], 16), [], [], []))
        elif what == 'found':
            objects.append(BoundObject(_name(words[0]), None, [], [], []))
        elif what == 'needs':
            objects[-1].needs.append(_name(words[0]))
        elif what == 'missing':
            objects[-1].missing.append(_name(words[0]))
        elif what != 'end':
            objects[-1].bindings.append(_binding(what, words))
    return objects


def _binding(what: str, words: list[str]) -> Binding:
    """Returns the binding of a line `binds`, `unresolved` or `undefined`."""
    symbol = _name(words[0])
    if what == 'binds':
        return Binding(symbol, _name(words[2]), int(words[1], 16))
    return Binding(symbol, None, 0 if what == 'unresolved' else None)


def _has(handle: _Handle, data: bytes) -> Error | bool:
    """Returns whether a library has exactly these bytes."""
    listing = _list(handle)
    if isinstance(listing, Error):
        return listing
    for it in listing.libraries:
        if it.length == len(data):
            found = _file(handle, it.name.encode())
            if found == data or isinstance(found, Error):
                return found if isinstance(found, Error) else True
    return False


def _put(handle: _Handle, data: bytes) -> Error | Put:
    """Installs a library, or replaces the library that has the same SONAME and other bytes. Tests the file itself
    first, with any libraries installed."""
    error = handle.ask('install', data, len(data))
    if not error or error.number != Status.ALREADY_INSTALLED:
        return error or 'installed'
    is_there = _has(handle, data)
    if is_there:
        return is_there if isinstance(is_there, Error) else 'unchanged'
    return handle.ask('replace', data, len(data)) or 'replaced'


def _finding(number: int) -> Finding:
    if number == _calls.SOUND:
        return Finding(number, 'Sound', 'ok')
    if number == _calls.OTHER_NAME:
        return Finding(number, 'OtherName', 'damaged OtherName')
    name = _library.rlibreg_file_refusal_name(number).decode()
    return Finding(number, name, f'damaged {name}')


def _damaged(name: str, finding: Finding) -> Error:
    """Returns the reason why the dump of a registry ends before this library, in the words of rlibreg-tool."""
    error = _error(Refusal, Status.DAMAGED)
    spelt = name.replace('\\', '\\x5c')
    error.text = finding.text.replace(' ', f' {spelt} ', 1)
    if finding.number != _calls.OTHER_NAME:
        error.file_refusal, error.file_refusal_name = finding.number, finding.name
    return error


def _findings(given: _calls.Findings) -> Findings:
    """Returns the names and findings of a check, in Python's own memory."""
    return [(ctypes.string_at(given.names + it.name, it.name_length).decode(),
             _finding(it.finding)) for it in given.findings[:given.count]]


def _image(given: _calls.Image) -> Image:
    """Returns an image that views the bytes in the library's memory."""
    places = given.segments[:given.count]
    data = given.view(sum(it.length for it in places))
    segments = [Segment(it.address, Permissions(it.permissions),
                        data[it.offset:it.offset + it.length]) for it in places]
    return Image(segments, [_object(it, given, segments)
                            for it in given.objects[:given.object_count]])


def _object(it: _calls.Object, given: _calls.Image, segments: list[Segment]) -> Object:
    name = ctypes.string_at(given.bytes + it.name, it.name_length).decode()
    own = segments[it.first_segment:it.first_segment + it.segments]
    return Object(it.base, name, own, it.headers, it.header_count, it.dynamic, it.entry)


def _is_of_a_change(number: int) -> bool:
    """Returns whether a refusal is that of a change, rather than of an opening or a bind."""
    return (Status.BAD_FILE <= number <= Status.TOO_MANY_PRELOADS or
            Status.FULL <= number <= Status.GENERATION_END)


class Update:
    """Changes of a registry that are made together, as one change, when the `with` block ends. If the block ends
    with an exception, none of them is made. Until the end, nothing is written or refused. If the registry refuses a
    change, the next `bind`, and the end, raise the exception; its `change` is the number of the refused change.
    Files are passed in the same way as to the calls of Registry, and stay in memory until the end."""

    def __init__(self, handle: _Handle) -> None:
        self._handle = handle
        self._changes: list[tuple[int, bytes]] | None = None

    def __enter__(self) -> Update:
        error = self._handle.refusal()
        if error:
            raise error
        if self._changes is not None:
            raise _error(Error, Status.BAD_ARGUMENT, 'the update has already begun')
        self._changes = []
        return self

    def __exit__(self, kind: object, *rest: object) -> None:
        try:
            if kind is None:
                self._call('update')
        finally:
            self._changes = None

    def _begun(self) -> list[tuple[int, bytes]]:
        """Returns the changes so far."""
        if self._changes is None:
            raise _error(Error, Status.BAD_ARGUMENT, 'changes of an update must be made inside its `with` block')
        return self._changes

    def _call(self, name: str, *words: object) -> None:
        """Makes a call with the changes so far."""
        begun, at = self._begun()[:], 0
        places = []
        for kind, own in begun:
            places.append(_calls.Change(kind, at, len(own)))
            at += len(own)
        changes, data = (_calls.Change * len(places))(*places), b''.join(own for _, own in begun)
        self._handle.do(lambda: self._ask(name, changes, len(places), data, at, *words))

    def _ask(self, name: str, *words: object) -> Error | None:
        """Makes a call. Returns None or its error, which has the number of the refused change."""
        error = self._handle.ask(name, *words)
        if error and _is_of_a_change(error.number):
            error.change = _library.rlibreg_last_answer(self._handle.struct).contents.count
        return error

    def install(self, file: Content) -> None:
        """Installs a library under its SONAME, as the last of the libraries."""
        self._begun().append((_calls.INSTALL, _content(file)))

    def replace(self, file: Content) -> None:
        """Replaces the library that has the same SONAME."""
        self._begun().append((_calls.REPLACE, _content(file)))

    def remove(self, name: str) -> None:
        """Removes the library of this name."""
        self._begun().append((_calls.REMOVE, _word(name)))

    def preload(self, names: Iterable[str]) -> None:
        """Makes the libraries with these names the preloads, in this order."""
        data = b''.join(word + b'\0' for word in _words(names))
        self._begun().append((_calls.PRELOAD, data))

    def bind(self, program: Content, base: int) -> Image:
        """Binds a program with the registry as it will be after the changes so far. Writes nothing."""
        data, given = _content(program), _calls.Image()
        address = _unsigned(base, 64)
        self._call('preview_bind', data, len(data), address, ctypes.byref(given))
        return _image(given)


class Registry:
    """The registry in a file, or on a block device. It is open and locked until `close`, or until the end of a
    `with` block. With `read_write` it is open for changes too, and the lock is exclusive; otherwise the lock is
    shared with other readers. If another process or Registry has the lock, Locked is raised. With `wait`, the call
    waits for the lock instead: without a limit if `wait` is True, and otherwise for `wait` seconds.

    You pass the file of a library or a program as its bytes (any object that has a buffer), or as its path (a str or
    an os.PathLike). The whole file of a path is read."""

    def __init__(self, path: PathName, read_write: bool = False, wait: Wait = False) -> None:
        name = _word(path)
        self._handle = _Handle(path)
        try:
            flags = _calls.READ_WRITE if read_write else 0
            self._handle.open('open', name, flags=flags, wait=wait)
        except BaseException:
            self._handle.close()
            raise

    def __enter__(self) -> Registry:
        error = self._handle.refusal()
        if error:
            raise error
        return self

    def __exit__(self, *exception: object) -> None:
        self.close()

    def __reduce__(self) -> NoReturn:
        raise TypeError('a Registry can be neither copied nor pickled')

    def __iter__(self) -> Iterator[str]:
        """Iterates over the names of the libraries, in the order of installation."""
        return iter([it.name for it in self.list().libraries])

    def __len__(self) -> int:
        """Returns the number of installed libraries."""
        return self.info().libraries

    def __contains__(self, name: object) -> bool:
        """Returns whether a library of this name is installed."""
        return any(it.name == name for it in self.list().libraries)

    def __bool__(self) -> bool:
        return True

    def close(self) -> None:
        """Closes the file and releases its lock. A second call does nothing."""
        self._handle.close()

    def install(self, file: Content) -> None:
        """Installs a library under its SONAME, as the last of the libraries."""
        data = _content(file)
        self._handle.call('install', data, len(data))

    def replace(self, file: Content) -> None:
        """Replaces the library that has the same SONAME."""
        data = _content(file)
        self._handle.call('replace', data, len(data))

    def put(self, file: Content) -> Put:
        """Installs a library, or replaces the library that has the same SONAME. Returns 'installed' or 'replaced'.
        If the library already has exactly these bytes, writes nothing and returns 'unchanged'."""
        data = _content(file)
        return self._handle.do(lambda: _put(self._handle, data))

    def remove(self, name: str) -> None:
        """Removes the library of this name."""
        self._handle.call('remove', _word(name))

    def preload(self, names: Iterable[str]) -> None:
        """Makes the libraries with these names the preloads, in this order. Every program is bound with the
        preloads."""
        words = _words(names)
        self._handle.call('preload', (_calls.TEXT * len(words))(*words), len(words))

    def update(self) -> Update:
        """Returns an update: changes that are made together, at the end of its `with` block. If the block ends with
        an exception, none of them is made."""
        return Update(self._handle)

    def list(self) -> Listing:
        """Returns the libraries, the preloads, and the number of changes since the disk was formatted."""
        return self._handle.do(lambda: _list(self._handle))

    def file(self, name: str) -> bytes:
        """Returns the bytes of the library with this name, as they were installed. Reads no other library's file,
        and doesn't test whether the bytes are still a library."""
        word = _word(name)
        return self._handle.do(lambda: _file(self._handle, word))

    def digest(self, name: str) -> bytes:
        """Returns the SHA-256 of the bytes that `file` returns for this name, in the form of hashlib's `digest`."""
        word, given = _word(name), _calls.array(_calls.DIGEST_BYTES)()
        self._handle.call('get_digest', word, given)
        return bytes(given.raw)

    def info(self) -> Info:
        """Returns the numbers of the registry as a whole. Reads no library's file."""
        given = _calls.Information()
        self._handle.call('get_info', ctypes.byref(given))
        return Info(*(getattr(given, name) for name in Info._fields))

    def check(self) -> Findings:
        """Tests each library, in the order of installation, and returns a finding for each of them. Tests all
        libraries even if one is damaged."""
        given = _calls.Findings()
        try:
            self._handle.call('check_libraries', ctypes.byref(given))
            return _findings(given)
        finally:
            _library.rlibreg_findings_free(ctypes.byref(given))

    def dump(self) -> Iterator[bytes]:
        """Yields the script with which `rlibreg script` makes the same registry again, as rlibreg-tool dumps it.
        Yields the script in pieces; take all of them before the next change. Only the last piece ends a line, so a
        script that lacks pieces is refused. If a library is damaged, or a call fails, the last piece is `cut`, and
        then the exception is raised."""
        begin = b''
        try:
            listing = self.list()
            for name, finding in self.check():
                if finding.number:
                    raise _damaged(name, finding)
                data = self.file(name)
                if self.info().generation != listing.generation:
                    raise _error(Error, Status.BAD_ARGUMENT, 'the registry was changed during the dump')
                yield begin + b'install '
                for at in range(0, len(data), _DUMPED):
                    yield binascii.hexlify(data[at:at + _DUMPED])
                begin = b'\n'
        except Error:
            yield begin + b'cut'
            raise
        if listing.preloads:
            yield begin + ' '.join(['preload', *listing.preloads]).encode()
        if begin:
            yield b'\n'

    def bind(self, program: Content, base: int) -> Image:
        """Binds a program at an address, with the preloads and the libraries that it needs."""
        data, given = _content(program), _calls.Image()
        address = _unsigned(base, 64)
        self._handle.call('bind_program', data, len(data), address, ctypes.byref(given))
        return _image(given)

    def bindings(self, program: Content, base: int) -> Bindings:
        """Binds a program at an address, and returns the bindings of the symbols of the program and of the libraries
        that it needs. An undefined symbol or a missing name raises no exception: `status` has the number with which
        `bind` would refuse."""
        data, address = _content(program), _unsigned(base, 64)
        return self._handle.do(lambda: _bindings(self._handle, data, address))

    def executable(self, program: Content, base: int) -> bytes:
        """Returns the static executable file of a program that is bound at an address. The file needs neither a
        loader nor the registry. Linux before 6.17 starts no file with more than 73 program headers."""
        data, address = _content(program), _unsigned(base, 64)
        return self._handle.do(lambda: _executable(self._handle, data, address))


def format(path: PathName, sectors: int, wait: Wait = False) -> None:
    """Makes an empty registry of `sectors` sectors of 512 bytes: in a new file, or in an existing
    file or a block device of that length."""
    name, count = _word(path), _unsigned(sectors, 32)
    handle = _Handle(path)
    try:
        handle.open('format', name, count, flags=0, wait=wait)
    finally:
        handle.close()


def upgrade(path: PathName, wait: Wait = False) -> None:
    """Turns a registry of version 1 into one of version 2, with the same libraries and preloads."""
    with Registry(path, read_write=True, wait=wait) as registry:
        registry._handle.call('upgrade')
