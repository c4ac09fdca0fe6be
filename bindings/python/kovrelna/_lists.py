"""Lists as they are lent to a call and as they come back.

- `Lent`, `Output`, `Numbers`: the types of a list that is lent, of one that is to be written, and of
  one that comes back.
- `Whole`, `whole`: the type of whole numbers that are copied, whatever holds them; the copy.
- `Item`: what the elements of a list are; `TICK`, `VALUE`, `ENTRY`, `BYTE`, `LENGTH`.
- `Loan`: the lists lent to one call, as addresses and lengths. Buffers are not copied.
- `new`, `used`, `parts`: a new output; the elements that a call has written, and those of each part.

Assumes CPython, whose buffers are reached through its C interface.
"""

import array
import ctypes
import importlib
import itertools
import operator
import struct
import sys
from typing import TYPE_CHECKING, Any, Dict, FrozenSet, Iterable, List, NamedTuple, Optional
from typing import Protocol, Sequence, SupportsIndex, Tuple, Union

if TYPE_CHECKING:
    from _typeshed import ReadableBuffer, WriteableBuffer


class Array(Protocol):
    """What is known here of the type of numpy's arrays."""

    @property
    def __array_interface__(self) -> Dict[str, Any]: ...


# A buffer, or a list, a tuple or a range of whole numbers; a buffer that can be written.
Lent = Union[Sequence[SupportsIndex], "ReadableBuffer", Array]
Output = Union["WriteableBuffer", Array]
# Whole numbers, in whatever gives them in turn.
Whole = Union[Iterable[SupportsIndex], Array]
# What comes back: an array of numpy or of module array, or a memoryview.
Numbers = Any


class Item(NamedTuple):
    """An element: the type code of module array, bytes, the least and the greatest number, and the
    formats of buffers that have such elements."""

    code: str
    size: int
    least: int
    most: int
    formats: FrozenSet[str]

    def __str__(self) -> str:
        kind = "unsigned" if self.least == 0 else "signed"
        names = f"array type code {self.code!r}, numpy {self.numpy}"
        return f"{kind} {8 * self.size}-bit integers ({names})"

    @property
    def numpy(self) -> str:
        """The name of numpy's type."""
        return f"{'u' if self.least == 0 else ''}int{8 * self.size}"

    def fits(self, view: memoryview) -> bool:
        """Whether the elements of the buffer are such ones, in this machine's byte order."""
        if view.format.lstrip(ORDERS) not in self.formats:
            return False
        # Of an empty array of ctypes Python 3.8 says that its items have no bytes.
        return (view.itemsize or struct.calcsize(view.format)) == self.size


# The prefixes of a format that mean this machine's byte order.
ORDERS = "@=<" if sys.byteorder == "little" else "@=>!"

UNSIGNED, SIGNED = frozenset("BHILQN"), frozenset("bhilqn")

TICK = Item("I", 4, 0, 2**32 - 1, UNSIGNED)
VALUE = Item("h", 2, -(2**15), 2**15 - 1, SIGNED)
ENTRY = Item("H", 2, 0, 2**16 - 1, UNSIGNED)
BYTE = Item("B", 1, 0, 2**8 - 1, UNSIGNED | {"c"})
LENGTH = Item("Q", 8, 0, 2**64 - 1, UNSIGNED)

# No list of one trace, no range table and no record has more elements: one that has more is refused
# as its beginning is.
MOST = 2**16
# The same of a crate: so many elements more than the lengths add up to.
SPARE = 2**20


class _Buffer(ctypes.Structure):
    """Py_buffer of the interpreter's C interface."""

    _fields_ = [
        ("buf", ctypes.c_void_p),
        ("obj", ctypes.c_void_p),
        ("len", ctypes.c_ssize_t),
        ("itemsize", ctypes.c_ssize_t),
        ("readonly", ctypes.c_int),
        ("ndim", ctypes.c_int),
        ("format", ctypes.c_void_p),
        ("shape", ctypes.c_void_p),
        ("strides", ctypes.c_void_p),
        ("suboffsets", ctypes.c_void_p),
        ("internal", ctypes.c_void_p),
    ]


_SIMPLE = 0
_get_buffer = ctypes.pythonapi.PyObject_GetBuffer
_get_buffer.argtypes = (ctypes.py_object, ctypes.POINTER(_Buffer), ctypes.c_int)
_release_buffer = ctypes.pythonapi.PyBuffer_Release
_release_buffer.argtypes = (ctypes.POINTER(_Buffer),)
_release_buffer.restype = None


class Borrowed(NamedTuple):
    """A list that is lent, from the address `start` to the address `end`."""

    name: str
    item: Item
    output: bool
    view: memoryview
    buffer: Optional[_Buffer] = None
    start: int = 0
    end: int = 0

    @property
    def numbers(self) -> memoryview:
        """What it holds."""
        return self.view.cast("B").cast(self.item.code) if len(self.view) else self.view


class Loan:
    """The lists lent to one call. In a `with` statement: they cannot be resized until it ends."""

    def __init__(self) -> None:
        self.lists: List[Borrowed] = []

    def __enter__(self) -> "Loan":
        return self

    def __exit__(self, *exception: object) -> None:
        for lent in self.lists:
            if lent.buffer is not None:
                _release_buffer(lent.buffer)
            lent.view.release()

    def input(
        self, name: str, given: Any, item: Item, most: int = MOST
    ) -> Tuple[Optional[int], int]:
        """The address and the length of a buffer, or of a copy of a list, a tuple or a range: of its
        first `most` elements."""
        if isinstance(given, (list, tuple, range)):
            given = _converted(name, given[:most], item)
        return self._lend(name, given, item, False)

    def output(self, name: str, given: Any, item: Item) -> Tuple[Optional[int], int]:
        """The address and the length of a buffer that can be written and overlaps no other list."""
        return self._lend(name, given, item, True)

    def numbers(self, item: Item) -> memoryview:
        """What the first list of such elements holds."""
        return next(lent.numbers for lent in self.lists if lent.item == item)

    def _lend(self, name: str, given: Any, item: Item, output: bool) -> Tuple[Optional[int], int]:
        view = _view(name, given, item, output)
        length = len(view)
        if length == 0:
            self.lists.append(Borrowed(name, item, output, view))
            return None, 0
        buffer = _Buffer()
        _get_buffer(view, buffer, _SIMPLE)
        start = buffer.buf
        end = start + length * item.size
        self.lists.append(Borrowed(name, item, output, view, buffer, start, end))
        if start % item.size != 0:
            copied = f"; write {name}.copy()" if _is_numpy(given) and not output else ""
            fault = f"{name} must begin at a multiple of {item.size} bytes in memory"
            raise ValueError(fault + copied)
        for other in self.lists[:-1]:
            if (output or other.output) and start < other.end and other.start < end:
                raise ValueError(f"{name} and {other.name} overlap in memory")
        return start, length


def _view(name: str, given: Any, item: Item, output: bool) -> memoryview:
    """The buffer, if it is one of such elements."""
    try:
        view = memoryview(given)
    except (TypeError, ValueError, BufferError) as error:
        fault = f"{type(given).__name__} is none ({error})"
        if not output:
            fault += ", nor a list, a tuple or a range of whole numbers"
    else:
        if view.ndim != 1:
            fault = f"it has {view.ndim} dimensions, not 1"
        elif not item.fits(view):
            fault = f"it has format {view.format!r} with {view.itemsize} bytes an item"
        elif not view.c_contiguous:
            fault = "it is not contiguous"
        elif output and view.readonly:
            fault = "it is read-only"
        elif hasattr(given, "mask"):
            fault = "it has a mask, which would be lost"
        else:
            return view
        view.release()
    message = f"{name} must be a {'writable ' if output else ''}buffer of {item}: {fault}"
    raise TypeError(message if output else message + _instead(name, given, item))


def _instead(name: str, given: Any, item: Item) -> str:
    """What to write instead of an input that is refused, if that is known."""
    if hasattr(given, "mask"):
        return ""
    if isinstance(given, array.array):
        return f"; write array.array({item.code!r}, {name})"
    if hasattr(given, "to_numpy"):
        return f"; write {name}.to_numpy(numpy.{item.numpy})"
    if not _is_numpy(given):
        return ""
    if given.ndim == 2:
        return f"; write numpy.ascontiguousarray({name}[:, 0]) for its first column"
    if given.ndim != 1 or given.dtype.kind not in "iufb":
        return ""
    if given.dtype == item.numpy:
        return f"; write numpy.ascontiguousarray({name})"
    whole = " whole and" if given.dtype.kind == "f" else ""
    limits = f"if all are{whole} from {item.least} to {item.most}"
    return f"; write {name}.astype(numpy.{item.numpy}), {limits}"


def _converted(name: str, given: Any, item: Item) -> "array.array[int]":
    """A copy of the list. A number out of range, or what is no whole number, is named."""
    try:
        return array.array(item.code, map(operator.index, given))
    except (OverflowError, TypeError):
        for position, element in enumerate(given):
            try:
                fits = item.least <= operator.index(element) <= item.most
            except TypeError:
                message = f"{name}[{position}] must be a whole number, not {element!r}"
                raise TypeError(message) from None
            if not fits:
                message = f"{name}[{position}] must be from {item.least} to {item.most}"
                raise OverflowError(f"{message}, not {element}") from None
        raise


def whole(name: str, given: Any, item: Item, most: int) -> "array.array[int]":
    """A copy of the first `most` whole numbers, whatever holds them."""
    if hasattr(given, "mask"):
        raise TypeError(f"{name} must be whole numbers: it has a mask, which would be lost")
    try:
        numbers = iter(given)
    except TypeError:
        message = f"{name} must be whole numbers, such as a list of them, not {given!r}"
        raise TypeError(message) from None
    return _converted(name, list(itertools.islice(numbers, most)), item)


def _is_numpy(given: Any) -> bool:
    """Whether this is an array of numpy, which is not imported for that."""
    numpy = sys.modules.get("numpy")
    return numpy is not None and isinstance(given, numpy.ndarray)


def new(item: Item, length: int, like: Any, numpy: bool = False) -> Any:
    """An output of so many elements: an array of numpy if that is wanted or `like` is one, else one
    of array."""
    if numpy or _is_numpy(like):
        return importlib.import_module("numpy").empty(length, item.code)
    return array.array(item.code, bytes(length * item.size))


def used(room: Any, item: Item, start: int, length: int, made: bool = False) -> Any:
    """So many elements of an output, from `start` on: a view of them, or of an array that was made
    for the call an array of these alone."""
    if _is_numpy(room):
        part = room[start : start + length]
        return part.copy() if made and length < len(room) else part
    if made:
        del room[length:]
        return room
    return memoryview(room).cast("B").cast(item.code)[start : start + length]


def parts(room: Any, item: Item, size: int, lengths: Iterable[int], made: bool = False) -> List[Any]:
    """So many elements of each part of an output, whose parts have `size` elements: views of them, or
    of an array that was made for the call arrays of these alone."""
    places = [(part * size, length) for part, length in enumerate(lengths)]
    if made:
        # A slice of an array of module array is a copy.
        cut = [room[start : start + length] for start, length in places]
        return [part.copy() for part in cut] if _is_numpy(room) else cut
    return [used(room, item, start, length) for start, length in places]
