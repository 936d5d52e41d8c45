"""The shared library, as rlibreg.h declares it."""

from __future__ import annotations

import ctypes
import functools
import glob
import os
from typing import Any

VERSION = '0.4.0'  # the version of rlibreg.h, whose structures and calls are below
NAME = f'librlibreg.so.{VERSION.rpartition(".")[0]}'  # its SONAME

READ_WRITE, WAIT = 1, 2
SOUND, OTHER_NAME = 0, 100
INSTALL, REPLACE, REMOVE, PRELOAD = 1, 2, 3, 4
DIGEST_BYTES = 32


class Answer(ctypes.Structure):
    _fields_ = [('status', ctypes.c_uint32), ('file_refusal', ctypes.c_uint32),
                ('count', ctypes.c_uint64), ('preloads', ctypes.c_uint64),
                ('bytes', ctypes.c_uint64), ('text', ctypes.c_uint64),
                ('generation', ctypes.c_uint64), ('objects', ctypes.c_uint64)]


class Segment(ctypes.Structure):
    _fields_ = [('address', ctypes.c_uint64), ('length', ctypes.c_uint64),
                ('offset', ctypes.c_uint64), ('permissions', ctypes.c_uint64)]


class Object(ctypes.Structure):
    _fields_ = [(name, ctypes.c_uint64) for name in
                ('base', 'name', 'name_length', 'first_segment', 'segments', 'headers',
                 'header_count', 'dynamic', 'entry')]


class Entry(ctypes.Structure):
    _fields_ = [('name', ctypes.c_uint64), ('name_length', ctypes.c_uint32),
                ('file_length', ctypes.c_uint32)]


class Finding(ctypes.Structure):
    _fields_ = [('name', ctypes.c_uint64), ('name_length', ctypes.c_uint32),
                ('finding', ctypes.c_uint32)]


class Change(ctypes.Structure):
    _fields_ = [(name, ctypes.c_uint64) for name in ('kind', 'offset', 'length')]


class Information(ctypes.Structure):
    _fields_ = [(name, ctypes.c_uint64) for name in
                ('version', 'sectors', 'generation', 'libraries', 'preloads', 'unused_sectors',
                 'unused_runs', 'largest')]


class Listing(ctypes.Structure):
    _fields_ = [('generation', ctypes.c_uint64), ('libraries', ctypes.c_size_t),
                ('preloads', ctypes.c_size_t), ('entries', ctypes.POINTER(Entry)),
                ('names', ctypes.c_void_p)]


class Findings(ctypes.Structure):
    _fields_ = [('count', ctypes.c_size_t), ('findings', ctypes.POINTER(Finding)),
                ('names', ctypes.c_void_p)]


@functools.lru_cache(maxsize=64)
def array(length: int) -> Any:
    """Returns the type of an array of `length` bytes. Stores each type, because making it takes long."""
    return ctypes.c_char * length


class Image(ctypes.Structure):
    """An image, whose memory is freed with it."""

    _fields_ = [('count', ctypes.c_size_t), ('object_count', ctypes.c_size_t),
                ('objects', ctypes.POINTER(Object)), ('segments', ctypes.POINTER(Segment)),
                ('bytes', ctypes.c_void_p)]

    def view(self, length: int) -> memoryview:
        """Returns a view of the first `length` bytes, which exist as long as a view of them does. Copies nothing.
        Any length is possible, unlike with string_at, whose length is a C int."""
        data = array(length).from_address(self.bytes)
        data.image = self
        return memoryview(data).cast('B').toreadonly()


class Registry(ctypes.c_void_p):
    """A struct rlibreg, which is closed with it."""


POINTER, TEXT, SIZE = ctypes.c_void_p, ctypes.c_char_p, ctypes.c_size_t
NUMBER, FLAGS = ctypes.c_uint32, ctypes.c_uint

PROTOTYPES: dict[str, tuple[Any, ...]] = {  # the result of each call, and its arguments
    'version': (NUMBER,),
    'status_name': (TEXT, NUMBER),
    'file_refusal_name': (TEXT, NUMBER),
    'create': (Registry,),
    'close': (None, POINTER),
    'text': (TEXT, POINTER),
    'last_answer': (ctypes.POINTER(Answer), POINTER),
    'errno': (ctypes.c_int, POINTER),
    'set_wait_limit': (None, POINTER, ctypes.c_int),
    'open': (NUMBER, POINTER, TEXT, FLAGS),
    'format': (NUMBER, POINTER, TEXT, NUMBER, FLAGS),
    'upgrade': (NUMBER, POINTER),
    'install': (NUMBER, POINTER, TEXT, SIZE),
    'replace': (NUMBER, POINTER, TEXT, SIZE),
    'remove': (NUMBER, POINTER, TEXT),
    'preload': (NUMBER, POINTER, ctypes.POINTER(TEXT), SIZE),
    'update': (NUMBER, POINTER, ctypes.POINTER(Change), SIZE, TEXT, SIZE),
    'get_listing': (NUMBER, POINTER, ctypes.POINTER(Listing)),
    'listing_free': (None, ctypes.POINTER(Listing)),
    'get_file': (NUMBER, POINTER, TEXT, ctypes.POINTER(POINTER), ctypes.POINTER(SIZE)),
    'get_digest': (NUMBER, POINTER, TEXT, POINTER),
    'get_info': (NUMBER, POINTER, ctypes.POINTER(Information)),
    'check_libraries': (NUMBER, POINTER, ctypes.POINTER(Findings)),
    'findings_free': (None, ctypes.POINTER(Findings)),
    'bind_program': (NUMBER, POINTER, TEXT, SIZE, ctypes.c_uint64, ctypes.POINTER(Image)),
    'preview_bind': (NUMBER, POINTER, ctypes.POINTER(Change), SIZE, TEXT, SIZE, TEXT, SIZE,
                     ctypes.c_uint64, ctypes.POINTER(Image)),
    'image_free': (None, ctypes.POINTER(Image)),
    'get_bindings': (NUMBER, POINTER, TEXT, SIZE, ctypes.c_uint64, ctypes.POINTER(POINTER),
                     ctypes.POINTER(SIZE)),
    'get_executable': (NUMBER, POINTER, TEXT, SIZE, ctypes.c_uint64, ctypes.POINTER(POINTER),
                       ctypes.POINTER(SIZE)),
}


def not_found(why: OSError) -> ImportError:
    """Returns an error with the library that was searched for, the places of the search, and the libraries of this
    name that exist."""
    named = os.environ.get('LD_LIBRARY_PATH')
    folders = [*filter(None, (named or '').split(':')), '/usr/local/lib',
               f'/usr/lib/{os.uname().machine}-linux-gnu', '/usr/lib64', '/usr/lib']
    there = [it for folder in dict.fromkeys(folders)
             for it in sorted(glob.glob(f'{glob.escape(folder)}/librlibreg.so.*'))]
    return ImportError(
        f'rlibreg {VERSION} calls {NAME}, which the loader looks for in LD_LIBRARY_PATH '
        f'({named or "not set"}) and in the folders that ldconfig has been run for: {why}. '
        f'In {":".join(folders)} there is {", ".join(there) or "none of any version"}', name=NAME)


def loaded_from() -> str:
    """Returns the file from which the library was loaded, if the system reports it."""
    try:
        with open('/proc/self/maps') as maps:
            return next((line.split(maxsplit=5)[5].strip() for line in maps
                         if '/librlibreg.so' in line), NAME)
    except OSError:
        return NAME


def load() -> ctypes.CDLL:
    try:
        loaded = ctypes.CDLL(NAME)
    except OSError as error:
        raise not_found(error) from None
    for call, (result, *arguments) in PROTOTYPES.items():
        function = getattr(loaded, f'rlibreg_{call}', None)
        if function is None:
            raise ImportError(f'rlibreg {VERSION} calls a later {NAME}, with rlibreg_{call}: '
                              f'the loader has taken {loaded_from()}', name=NAME)
        function.restype, function.argtypes = result, arguments
    return loaded


library = load()
# Only C code of Python calls the functions that free memory. In a Python method, the handler of a
# signal could run: its exception would be lost, and the memory would never be freed.
method = ctypes.pythonapi.PyInstanceMethod_New
method.restype, method.argtypes = ctypes.py_object, [ctypes.py_object]
Registry.__del__ = method(library.rlibreg_close)  # type: ignore[attr-defined]
Image.__del__ = method(library.rlibreg_image_free)  # type: ignore[attr-defined]

free = ctypes.CDLL(None).free  # the process's own, like the library's malloc
free.restype, free.argtypes = None, [POINTER]
