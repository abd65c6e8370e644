"""The shared library, its calls with their types, and the conversion of octets for them."""

import collections.abc
import ctypes
import enum
import os
from typing import TYPE_CHECKING, Any, Callable, Dict, Iterable, Tuple, Union

from ._calls import CALLS, VERSION, WORDS

if TYPE_CHECKING:
    from _typeshed import ReadableBuffer

    Octets = Union[ReadableBuffer, Iterable[int]]


class Cause(str, enum.Enum):
    """Why a call returned no value. Each is its word too: Cause.UNIT == "unit"."""

    LONG = "long"
    """A line has more than 8,192 octets."""
    FORM = "form"
    """A line is not words of octets 21 to 7E hex with single spaces between them."""
    KIND = "kind"
    """The first word of a line names no type of data unit."""
    KEY = "key"
    """A line has too few or too many words, or a key that is not the next of its kind."""
    VALUE = "value"
    """A value of a line is not of its form, or values do not fit each other."""
    ROOM = "room"
    """A data unit has more octets than the buffer."""
    UNIT = "unit"
    """The octets do not begin with a whole data unit."""
    NAC = "nac"
    """A network access code (NAC) is not one of 0 to 4095."""
    STATUS = "status"
    """A status symbol is not one of 0 to 3."""
    DUID = "duid"
    """A data unit identifier (DUID) is not one of 0 to 15."""
    SERIAL = "serial"
    """The serial number of a block is not one of 0 to 127."""
    LETTERS = "letters"
    """A letter is none of the code: a symbol is above 63, or a number has more bits than a codeword."""
    LENGTH = "length"
    """There are more or fewer octets, symbols or levels than the call takes."""
    FINISHED = "finished"
    """Octets come for a stream that was finished."""
    DIBITS = "dibits"
    """Octets come for a stream while dibits wait for their octet."""
    THREADS = "threads"
    """Two threads use a stream at once."""
    PLACE = "place"
    """An item does not begin at the end of the one before it, the first at bit 0."""
    PACKET = "packet"
    """The values are those of no packet that can be transmitted."""


class Error(ValueError):
    """A call returned no value. `cause` states why, and the text is its word."""

    def __init__(self, cause: Union[Cause, str]) -> None:
        self.cause = Cause(cause)
        super().__init__(self.cause.value)


# The cause of each number below 0 that has one in Python.
CAUSES: Dict[int, Cause] = {number: Cause(word) for number, word in WORDS.items() if word in {it.value for it in Cause}}


def _load() -> ctypes.PyDLL:
    """Loads the library: of this package, as pip installs it; in lib/ above it, as install.sh does; in out/ of a checkout; or the system's.

    A call takes about a microsecond, so it keeps the interpreter's lock, because giving that up and taking it again costs more.
    """
    here = os.path.dirname(os.path.abspath(__file__))
    for folder in (here, f"{here}/../../..", f"{here}/../../out"):
        if os.path.isfile(f"{folder}/libp25.so"):
            return ctypes.PyDLL(f"{folder}/libp25.so")
    for name in ("libp25.so.1", "libp25.so"):
        try:
            return ctypes.PyDLL(name)
        except OSError:
            pass
    raise ImportError("libp25.so is not found: `./prove library`, at the top of a checkout, makes it")


library = _load()


def call(name: str) -> Callable[..., Any]:
    """Returns the function of the library of this name, with the types of what it returns and takes."""
    function: Any = getattr(library, name)
    function.restype, function.argtypes = CALLS[name]
    return function  # type: ignore[no-any-return]


def _parts_of(number: int) -> Tuple[int, int, int]:
    return number // 10000, number // 100 % 100, number % 100


def version() -> Tuple[int, int, int]:
    """Returns the release of the library as three numbers, as (1, 1, 0)."""
    return _parts_of(call("p25_version")())


# A library has the calls of this package if its first number is the same and it is no earlier one.
if version()[0] != VERSION // 10000 or version() < _parts_of(VERSION):
    raise ImportError("libp25.so is release {}.{}.{}, and this package needs {}.{}.{} or later".format(*version(), *_parts_of(VERSION)))


class _PyBuffer(ctypes.Structure):
    # Py_buffer of Python's C interface
    _fields_ = (
        ("buf", ctypes.c_void_p),
        ("obj", ctypes.py_object),
        ("len", ctypes.c_ssize_t),
        ("itemsize", ctypes.c_ssize_t),
        ("readonly", ctypes.c_int),
        ("ndim", ctypes.c_int),
        ("format", ctypes.c_char_p),
        ("shape", ctypes.c_void_p),
        ("strides", ctypes.c_void_p),
        ("suboffsets", ctypes.c_void_p),
        ("internal", ctypes.c_void_p),
    )


def checked(octets: Any) -> Any:
    """Returns the octets as bytes or as a buffer whose items are octets; a list of numbers becomes bytes.

    TypeError for a number, a text, a set, a mapping, a list with a bool, and a buffer whose items are no octets, as numpy's of bool.
    """
    if isinstance(octets, (bytes, bytearray)):
        return octets
    if isinstance(octets, (int, str, collections.abc.Set, collections.abc.Mapping)):
        raise TypeError(f"octets are needed, and not {type(octets).__name__}")
    try:
        view = memoryview(octets)
    except TypeError:
        numbers = list(octets)
        if any(isinstance(it, bool) for it in numbers):
            raise TypeError("octets are needed, and not bool") from None
        return bytes(numbers)
    if view.itemsize != 1 or view.format not in ("B", "b", "c"):
        raise TypeError(f"octets are needed, and not items of the format {view.format}")
    return octets if view.c_contiguous else bytes(view)


def octets_of(octets: "Octets") -> bytes:
    """Returns octets as bytes. TypeError as `checked` raises it."""
    given = checked(octets)
    return given if isinstance(given, bytes) else bytes(given)


class View:
    """Octets at their address, without a copy. The object that has them is kept as long as the view is."""

    def __init__(self, octets: "Octets") -> None:
        given = checked(octets)
        self._buffer = _PyBuffer()
        ctypes.pythonapi.PyObject_GetBuffer(ctypes.py_object(given), ctypes.byref(self._buffer), 0)
        self.address, self.length = self._buffer.buf, int(self._buffer.len)

    def __del__(self) -> None:
        if getattr(self, "_buffer", None) is not None and self._buffer.buf is not None:
            ctypes.pythonapi.PyBuffer_Release(ctypes.byref(self._buffer))


def number_of(value: int, most: int, cause: Cause) -> int:
    """Returns a number from 0 to the most, and raises Error with the cause if it is none. TypeError if it is no whole number."""
    number = value.__index__() if hasattr(value, "__index__") else None
    if number is None:
        raise TypeError(f"a whole number is needed, and not {type(value).__name__}")
    if not 0 <= number <= most:
        raise Error(cause)
    return number


def exactly(octets: "Octets", length: int) -> bytes:
    """Returns octets of this number, and raises Error(length) if there are more or fewer."""
    given = octets_of(octets)
    if len(given) != length:
        raise Error(Cause.LENGTH)
    return given
