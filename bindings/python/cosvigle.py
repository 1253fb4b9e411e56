"""Demangles C++ symbols of the Itanium C++ ABI, by the shared library libcosvigle.so.0. Its calls are proved if the
Rattle toolchain has built it. This module is not proved.

    >>> import cosvigle
    >>> cosvigle.demangle("_ZNK3Foo3barEi")
    'Foo::bar(int) const'
    >>> cosvigle.demangle("malloc") is None
    True
    >>> cosvigle.demangle("_Z3fooISt6vectorIS0_IiEEEvv", style="llvm", returns=False)
    'foo<std::vector<std::vector<int>>>()'
    >>> cosvigle.replace("at _Z3foov+0x1")
    'at foo()+0x1'

What is printed for a symbol is chosen by these arguments, which each call takes by name:
    params    whether the parameters of a function are printed, with its return type and its qualifiers. They are.
    returns   whether the return type of a function is printed. It is. Only symbols of function templates have one.
    style     whose texts are printed: "gnu", those of c++filt, which is the default; "gnu-short", the same with the
              abbreviations of std as they are, as in c++filt -i; or "llvm"

The library is the file that the variable COSVIGLE_LIBRARY names. If it names none, it is cosvigle.libs/libcosvigle.so.0
beside this module, where a wheel puts it. If that isn't there, the system's loader looks for libcosvigle.so.0.
"""
import collections
import ctypes
import os
import threading

__all__ = ["Demangler", "Error", "LimitError", "Parts", "demangle", "demangle_type", "filter", "parts", "replace",
           "version"]
__version__ = "0.1.0"

_WRITTEN, _NO_ANSWER, _NO_MEMORY, _NO_ROOM, _NOT_UTF8, _BAD_CALL, _OVER_LIMIT = range(7)
_NO_RETURN, _NAME, _TYPES = 1, 2, 16
_STYLES = {"gnu": 0, "gnu-short": 4, "llvm": 8}
_KINDS = (None, "function", "data", "special")

Parts = collections.namedtuple("Parts", "kind base_name context parameters return_type has_qualifiers")
Parts.__doc__ = """The parts of a symbol. `kind` is "function", "data" or "special". A part that the symbol doesn't have
is empty, and so are all of a special name, such as that of a table, a thunk or a guard variable."""


class Error(Exception):
    """A call returned a status that it never returns, or that this module doesn't know."""

    def __init__(self, status):
        super().__init__(f"unexpected status {status}")
        self.status = status


class LimitError(Exception):
    """A symbol needs more memory than the limit."""


class _Handle(ctypes.Structure):
    _fields_ = [("at", ctypes.c_void_p)]


def _file():
    """The file of the library, or its name alone, for which the system's loader looks."""
    beside = os.path.join(os.path.dirname(os.path.abspath(__file__)), "cosvigle.libs", "libcosvigle.so.0")
    return os.environ.get("COSVIGLE_LIBRARY") or (beside if os.path.exists(beside) else "libcosvigle.so.0")


def _load():
    library = ctypes.CDLL(_file())
    handle, needed, number = ctypes.POINTER(_Handle), ctypes.POINTER(ctypes.c_size_t), ctypes.c_uint32
    text = [ctypes.c_char_p, ctypes.c_size_t]
    room = [ctypes.c_char_p, ctypes.c_size_t, needed]
    for name, arguments, result in (
        ("ask", [handle, number, *text, *room], ctypes.c_int),
        ("limit", [handle, ctypes.c_size_t], ctypes.c_int),
        ("part", [handle, number, number, *room], ctypes.c_int),
        ("kind", [handle], ctypes.c_int),
        ("has_qualifiers", [handle], ctypes.c_bool),
        ("replace", [handle, number, ctypes.c_bool, *text, *room], ctypes.c_int),
        ("filter", [handle, number, *text, *room], ctypes.c_int),
        ("take", [handle, *room], ctypes.c_int),
        ("free", [handle], None),
        ("version", [], ctypes.c_uint32),
    ):
        call = getattr(library, f"cosvigle_{name}")
        call.argtypes, call.restype = arguments, result
    return library


_library = _load()


def _bytes_of(text):
    """The bytes of a str, or of what is like bytes. A str may hold bytes that aren't UTF-8, as os.fsdecode has them."""
    if isinstance(text, str):
        return text.encode("utf-8", "surrogateescape")
    if isinstance(text, (bytes, bytearray, memoryview)):
        return bytes(text)
    raise TypeError(f"a str or bytes are needed, not {type(text).__name__}")


def _like(text, made):
    """The bytes that were made, in the form of the text that was given."""
    return made.decode("utf-8", "surrogateescape") if isinstance(text, str) else made


def _failure(status):
    if status == _NO_MEMORY:
        return MemoryError("cosvigle: out of memory")
    return LimitError("the symbol needs more memory than the limit") if status == _OVER_LIMIT else Error(status)


def _printing(params=True, returns=True, style="gnu"):
    """The sum of flags that the library takes."""
    if style not in _STYLES:
        raise ValueError(f"no such style: {style!r}")
    return _STYLES[style] + (_NAME if not params else 0 if returns else _NO_RETURN)


class Demangler:
    """Demangles symbol after symbol, and keeps its memory. Calls from several threads wait for one another.

    max_memory is how many bytes of memory may be taken to read a symbol. None is the default of the library."""

    def __init__(self, *, max_memory=None):
        self._handle = _Handle()
        self._lock = threading.Lock()
        self._room = ctypes.create_string_buffer(256)
        self._max_memory = max_memory
        if max_memory is not None and max_memory < 1:
            raise ValueError(f"no number of bytes: {max_memory!r}")

    def demangle(self, symbol, **how):
        """The declaration of a symbol, or None if it isn't read or isn't UTF-8. Bytes give bytes, and a str a str."""
        return self._asked(_printing(**how), symbol)

    def demangle_type(self, symbol, **how):
        """The same of a type alone, as typeid(x).name() has it. What has a symbol's prefix is read as a symbol."""
        return self._asked(_printing(**how) + _TYPES, symbol)

    def parts(self, symbol, *, style="gnu"):
        """The Parts of a symbol, or None if it has no declaration."""
        printing, given = _printing(style=style), _bytes_of(symbol)
        with self._lock:
            if self._ask(printing, given) is None:
                return None
            kind, qualified = _library.cosvigle_kind(self._handle), _library.cosvigle_has_qualifiers(self._handle)
            texts = [self._part(number, printing) for number in range(4)]
        return Parts(_KINDS[kind], *(_like(symbol, text) for text in texts), qualified)

    def _asked(self, printing, symbol):
        given = _bytes_of(symbol)
        with self._lock:
            made = self._ask(printing, given)
        return None if made is None else _like(symbol, made)

    def _ask(self, printing, given):
        self._set_limit()
        return self._grown(lambda *room: _library.cosvigle_ask(self._handle, printing, given, len(given), *room))

    def _part(self, number, printing):
        return self._grown(lambda *room: _library.cosvigle_part(self._handle, number, printing, *room)) or b""

    def _grown(self, call):
        """The text that the call writes, with more memory where it was too small, or None if there is none."""
        needed = ctypes.c_size_t()
        for attempt in range(2):
            status = call(self._room, len(self._room), needed)
            if status != _NO_ROOM or needed.value <= len(self._room) or attempt == 1:
                break
            self._room = ctypes.create_string_buffer(needed.value)
        if status == _WRITTEN and needed.value <= len(self._room):
            return ctypes.string_at(self._room, needed.value)
        if status in (_NO_ANSWER, _NOT_UTF8):
            return None
        raise _failure(status)

    def _set_limit(self):
        """Sets the limit of a handle that has none yet."""
        if self._max_memory is not None and not self._handle.at:
            status = _library.cosvigle_limit(self._handle, self._max_memory)
            if status != _WRITTEN:
                raise _failure(status)

    def replace(self, text, strip=False, *, types=False, **how):
        """The text with the symbols in its words replaced by their declarations, as the program cosvigle does. With
        strip one more underscore stands in front of a symbol. With types a word that is no symbol may be a type. A
        symbol that needs more memory than the limit stays."""
        printing = _printing(**how) + (_TYPES if types else 0)
        return self._made(text, lambda *rest: _library.cosvigle_replace(self._handle, printing, strip, *rest))

    def filter(self, lines, *, types=False, **how):
        """The lines with each that is a symbol replaced by its declaration, as cosvigle --lines does."""
        printing = _printing(**how) + (_TYPES if types else 0)
        return self._made(lines, lambda *rest: _library.cosvigle_filter(self._handle, printing, *rest))

    def _made(self, text, call):
        given = _bytes_of(text)
        needed = ctypes.c_size_t()
        room = ctypes.create_string_buffer(len(given) + len(given) // 2 + 1)
        with self._lock:
            self._set_limit()
            status = call(given, len(given), room, len(room), needed)
            if status == _NO_ROOM and needed.value > len(room):
                room = ctypes.create_string_buffer(needed.value)
                status = _library.cosvigle_take(self._handle, room, len(room), needed)
        if status != _WRITTEN or needed.value > len(room):
            raise _failure(status)
        return _like(text, ctypes.string_at(room, needed.value))

    def close(self):
        """Frees the memory that is kept. The value can be used again."""
        with self._lock:
            _library.cosvigle_free(self._handle)

    def __enter__(self):
        return self

    def __exit__(self, *_):
        self.close()

    def __del__(self):
        # The library is gone where the interpreter ends.
        if _library is not None and hasattr(self, "_handle"):
            _library.cosvigle_free(self._handle)


_own = threading.local()


def _demangler():
    """The demangler of this thread."""
    if not hasattr(_own, "demangler"):
        _own.demangler = Demangler()
    return _own.demangler


def demangle(symbol, *, params=True, returns=True, style="gnu"):
    """The declaration of a symbol, or None if it isn't read or isn't UTF-8. Bytes give bytes, and a str a str."""
    return _demangler().demangle(symbol, params=params, returns=returns, style=style)


def demangle_type(symbol, *, params=True, returns=True, style="gnu"):
    """The same of a type alone, as typeid(x).name() has it. What has a symbol's prefix is read as a symbol."""
    return _demangler().demangle_type(symbol, params=params, returns=returns, style=style)


def parts(symbol, *, style="gnu"):
    """The Parts of a symbol, or None if it has no declaration."""
    return _demangler().parts(symbol, style=style)


def replace(text, strip=False, *, types=False, params=True, returns=True, style="gnu"):
    """The text with the symbols in its words replaced by their declarations, as the program cosvigle does."""
    return _demangler().replace(text, strip, types=types, params=params, returns=returns, style=style)


def filter(lines, *, types=False, params=True, returns=True, style="gnu"):
    """The lines with each that is a symbol replaced by its declaration, as cosvigle --lines does."""
    return _demangler().filter(lines, types=types, params=params, returns=returns, style=style)


def version():
    """The version of the library: the major version times 1,000,000, the minor times 1,000, and the patch, added up."""
    return _library.cosvigle_version()
