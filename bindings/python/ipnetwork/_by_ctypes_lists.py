# mypy: ignore-errors
"""Lists and columns of the core over ``ctypes``: each is the bytes of structs, one after the
other."""

from __future__ import annotations

import array
import ctypes
import itertools
import operator
from collections.abc import Iterator
from typing import TYPE_CHECKING, Union

from ._by_ctypes_library import ADDRESS, answered, flat, library, unmapped_octets
from ._errors import error, shown

if TYPE_CHECKING:
    from _typeshed import ReadableBuffer

_OPERATIONS = {"|": "union", "&": "intersection", "-": "difference"}
_PART = 65536  # so many texts with offsets of 64 bits are handed to the library at once


def _step(version: int) -> int:
    return 5 if version == 4 else 17


def aggregate(version: int, rows: bytes) -> bytes:
    """The aggregate of the networks with these structs."""
    room, count = ctypes.create_string_buffer(rows, len(rows)), ctypes.c_size_t()
    call, step = getattr(library, f"ipnetwork_v{version}_aggregate"), _step(version)
    answered(call(room, len(rows) // step, ctypes.byref(count)))
    return room.raw[: count.value * step]


def _operated(
    operation: str, version: int, first: bytes, second: bytes, room: int
) -> tuple[int, ctypes.Array, int]:
    """The fault of an operation on two sets, the blocks in room for ``room`` of them, and their
    number."""
    step, count = _step(version), ctypes.c_size_t()
    call = getattr(library, f"ipnetwork_v{version}_{_OPERATIONS[operation]}")
    place = ctypes.create_string_buffer(room * step)
    one, other = len(first) // step, len(second) // step
    fault = call(first, one, second, other, place, room, ctypes.byref(count))
    return fault, place, count.value


def operate(operation: str, version: int, first: bytes, second: bytes) -> bytes:
    """The blocks of an operation on two sets, given by the bytes of their blocks."""
    room = (len(first) + len(second)) // _step(version)
    fault, place, count = _operated(operation, version, first, second, room)
    if fault == 4:  # a union has no more blocks than both sets; a difference may have more
        fault, place, count = _operated(operation, version, first, second, count)
    answered(fault)
    return place.raw[: count * _step(version)]


def is_empty(operation: str, version: int, first: bytes, second: bytes) -> bool:
    """Whether the result of such an operation is empty."""
    fault, _, count = _operated(operation, version, first, second, 0)
    if fault != 4:
        answered(fault)
    return count == 0


def range_rows(first: bytes, last: bytes) -> Union[bytes, None]:
    """The blocks from one packed address to another; None if the first comes after the other."""
    version, step = (4, 5) if len(first) == 4 else (6, 17)
    room, count = ctypes.create_string_buffer(254 * step), ctypes.c_size_t()
    call = getattr(library, f"ipnetwork_v{version}_range_to_blocks")
    fault = call(first, last, room, 254, ctypes.byref(count))
    if fault == 9:
        return None
    answered(fault)
    return room.raw[: count.value * step]


def _column(addresses: ReadableBuffer) -> bytes:
    """The bytes of a column of addresses, as ``read_rows`` returns them; ValueError if they are not
    one."""
    column = bytes(flat(addresses))
    if len(column) % ADDRESS:
        raise ValueError(f"{len(column)} bytes are no column of addresses of {ADDRESS} bytes")
    if column[16::ADDRESS].strip(b"\0\4\x10"):
        for row, length in enumerate(column[16::ADDRESS]):
            if length not in (0, 4, 16):
                raise ValueError(
                    f"row {row} is no address of 17 bytes as read_address_column gives it: its "
                    f"last byte is {length}"
                )
    return column


def unmapped_rows(addresses: ReadableBuffer) -> bytearray:
    """The addresses of a column, with each IPv4-mapped one replaced by the IPv4 address."""
    rows = bytearray(_column(addresses))
    for at in range(0, len(rows), ADDRESS):
        if rows[at + 16] == 16:
            octets = unmapped_octets(bytes(rows[at : at + 16]))
            if octets is not None:
                rows[at : at + ADDRESS] = octets + bytes(12) + b"\4"
    return rows


def _family(column: bytes, width: int) -> tuple[list[int], bytes]:
    """The rows of a column that have addresses of ``width`` bytes, and these addresses, packed."""
    rows = [row for row, length in enumerate(column[16::ADDRESS]) if length == width]
    return rows, b"".join([column[row * ADDRESS : row * ADDRESS + width] for row in rows])


def _mapped(column: bytes) -> tuple[list[int], bytes]:
    """The rows of a column that have IPv4-mapped addresses, and the IPv4 addresses, packed."""
    rows, packed = _family(column, 16)
    fours = [unmapped_octets(packed[at : at + 16]) for at in range(0, len(packed), 16)]
    found = [(row, four) for row, four in zip(rows, fours) if four is not None]
    return [row for row, _ in found], b"".join([four for _, four in found])


def index(version: int, blocks: bytes) -> bytes:
    """The index by which a list of blocks is searched: empty if there are only few."""
    count, length = len(blocks) // _step(version), ctypes.c_size_t()
    if count < 8:
        return b""
    answered(library.ipnetwork_index_size(count, ctypes.byref(length)))
    room = (ctypes.c_uint32 * length.value)()
    answered(getattr(library, f"ipnetwork_v{version}_table_index_make")(blocks, count, room, length))
    return bytes(room)


def contains_packed(blocks: bytes, index: bytes, packed: bytes, width: int) -> bytes:
    """For each packed address of ``width`` bytes, whether it is in the set of these blocks."""
    count = len(packed) // width
    answers, faults = (ctypes.c_ubyte * count)(), (ctypes.c_ubyte * count)()
    call = getattr(library, f"ipnetwork_v{4 if width == 4 else 6}_index_contains_column")
    of = blocks, len(blocks) // (width + 1), index, len(index) // 4, packed, count
    answered(call(*of, answers, count, faults, count))
    answered(any(faults))
    return bytes(answers)


def find_packed(structs: bytes, index: bytes, packed: bytes, width: int) -> list[int]:
    """For each packed address of ``width`` bytes, the place of the longest of these structs that
    has it, or -1."""
    count = len(packed) // width
    places, faults = (ctypes.c_size_t * count)(), (ctypes.c_ubyte * count)()
    call = getattr(library, f"ipnetwork_v{4 if width == 4 else 6}_index_find_column")
    of = structs, len(structs) // (width + 1), index, len(index) // 4, packed, count
    answered(call(*of, places, count, faults, count))
    return [-1 if fault else place for place, fault in zip(places, faults)]


def numbers_packed(
    structs: bytes, numbers: bytes, index: bytes, packed: bytes, width: int
) -> list[int]:
    """For each packed address of ``width`` bytes, the number of the range that it is in, or -1,
    which is also the number of a range without a block."""
    count, of = len(packed) // width, len(structs) // (width + 1)
    places, faults = (ctypes.c_size_t * count)(), (ctypes.c_ubyte * count)()
    call = getattr(library, f"ipnetwork_v{4 if width == 4 else 6}_ranges_find_column")
    given = structs, of, numbers, of, index, len(index) // 4, packed, count
    answered(call(*given, places, count, faults, count))
    return [-1 if fault else place for place, fault in zip(places, faults)]


def set_contains_column(
    search: tuple[bytes, bytes, bytes, bytes, bool], addresses: ReadableBuffer
) -> bytearray:
    """For each address of a column a byte: 1 if it is in the set, else 0."""
    column = _column(addresses)
    answers = bytearray(len(column) // ADDRESS)
    for width, (blocks, index) in ((4, search[:2]), (16, search[2:4])):
        rows, packed = _family(column, width)
        for row, answer in zip(rows, contains_packed(blocks, index, packed, width)):
            answers[row] = answer
    if search[4]:
        rows, packed = _mapped(column)
        for row, answer in zip(rows, contains_packed(*search[:2], packed, 4)):
            answers[row] |= answer
    return answers


def table_make(version: int, rows: bytes) -> tuple[bytes, bytes]:
    """The blocks of the networks with these structs, in the order of a table, and for each the
    place of its network, as a number of the size of a pointer."""
    step = _step(version)
    count = len(rows) // step
    blocks, places = ctypes.create_string_buffer(count * step), (ctypes.c_size_t * count)()
    call = getattr(library, f"ipnetwork_v{version}_table_make")
    answered(call(rows, count, blocks, count, places, count))
    return blocks.raw, bytes(places)


def ranges(version: int, blocks: bytes, numbers: bytes) -> tuple[bytes, bytes, bytes]:
    """The ranges of addresses that have the same longest block of a table, as structs of their
    first addresses; the number of that block or -1; and an index of the ranges."""
    step, made = _step(version), ctypes.c_size_t()
    count = len(blocks) // step
    if len(numbers) // 8 < count:
        raise ValueError("there is not a number for each block")
    structs = ctypes.create_string_buffer(2 * count * step)
    range_numbers = (ctypes.c_size_t * (2 * count))()
    call = getattr(library, f"ipnetwork_v{version}_ranges_make_numbered")
    near = index(version, blocks)
    given = blocks, count, numbers, count, near, len(near) // 4
    answered(call(*given, structs, 2 * count, range_numbers, 2 * count, ctypes.byref(made)))
    front = structs.raw[: made.value * step]
    return front, bytes(range_numbers)[: made.value * 8], index(version, front)


def table_find_column(
    search: tuple[bytes, bytes, bytes, bytes, bytes, bytes, bool], addresses: ReadableBuffer
) -> bytearray:
    """For each address of a column the number of the longest network that has it, or -1, as numbers
    of 64 bits."""
    column = _column(addresses)
    answers = array.array("q", [-1]) * (len(column) // ADDRESS)
    for width, (structs, numbers, index) in ((4, search[:3]), (16, search[3:6])):
        rows, packed = _family(column, width)
        for row, number in zip(rows, numbers_packed(structs, numbers, index, packed, width)):
            answers[row] = number
    if search[6]:
        rows, packed = _mapped(column)
        for row, number in zip(rows, numbers_packed(*search[:3], packed, 4)):
            answers[row] = number if number >= 0 else answers[row]
    return bytearray(answers.tobytes())


class _OtherRow(Exception):
    """A row that ``layout`` does not accept."""


def _no_text(row: object, missing: object) -> None:
    if not (row is None or row is missing or (isinstance(row, float) and row != row)):
        raise _OtherRow


def _may_be_packed(row: bytes) -> bool:
    """Whether bytes may be a packed address, of which NumPy drops the zeros at the end, or a row of
    17 bytes with one: they are not the text of an address, and have its length of 4 or 16, or at
    most 17 and are not printable ASCII."""
    if len(row) > 17 or (len(row) not in (4, 16) and row.isascii() and row.decode().isprintable()):
        return False
    held = (ctypes.c_ubyte * ADDRESS)()
    return library.ipnetwork_address_read(row, len(row), ctypes.byref(held)) != 0


def _bytes_of(row: object, missing: object) -> Union[bytes, None]:
    if isinstance(row, str):
        return row.encode("utf-8")
    if not isinstance(row, bytes):
        return _no_text(row, missing)
    if _may_be_packed(row):
        raise _OtherRow
    return row


def layout(
    rows: list[object], missing: object
) -> Union[tuple[bytes, bytearray, bytearray], None]:
    """The rows of a list in Arrow's layout: the bytes and the offsets; and for each row a byte: the
    fault of a text without an address if it has no text, else 0. None if a row is neither str,
    bytes, None, NaN nor ``missing``, or is bytes that may be a packed address, or a str that cannot
    be encoded in UTF-8."""
    try:
        texts = [_bytes_of(row, missing) for row in rows]
    except (UnicodeEncodeError, _OtherRow):
        return None
    each = [text or b"" for text in texts]
    if sum(map(len, each)) > 0x7FFFFFFF:
        raise ValueError(
            "the texts have more than 2147483647 bytes, which is past the offsets: give them in "
            "parts"
        )
    offsets = array.array("I", itertools.accumulate(map(len, each), initial=0))
    faults = bytearray(2 * (text is None) for text in texts)
    return b"".join(each), bytearray(offsets.tobytes()), faults


def _offsets_of(given: ReadableBuffer) -> memoryview:
    """A copy of offsets, as numbers of 32 or 64 bits: what is checked is what is used, whatever
    another thread writes meanwhile."""
    view = memoryview(given)
    if view.itemsize not in (4, 8):
        raise ValueError(f"offsets are numbers of 32 or of 64 bits, not of {view.itemsize * 8}")
    order = "@=<" if array.array("I", [1]).tobytes()[0] else "@="
    kind = view.format[view.format[0] in order :]
    if len(kind) != 1 or kind not in "iIlLqQnN":
        raise TypeError(
            "offsets are whole numbers in the order of the machine, not of the format "
            f"{view.format:.60}"
        )
    copied = bytes(view.cast("B")) if view.nbytes else b""
    return memoryview(copied).cast("I" if view.itemsize == 4 else "Q")


def _parts(offsets: memoryview) -> Iterator[tuple[int, int]]:
    """The rows at which each part begins and ends. A part is texts whose offsets, counted from the
    first, have 32 bits, or a single text."""
    count, row = max(len(offsets) - 1, 0), 0
    while row < count:
        end = min(row + _PART, count)
        while end > row + 1 and offsets[end] - offsets[row] > 0x7FFFFFFF:
            end -= 1
        yield row, end
        row = end


def _read_part(
    kind: int, texts: memoryview, offsets: list[int], rows: memoryview, faults: memoryview
) -> int:
    """Reads texts into as many rows and faults; returns the fault of the whole call."""
    starts, count = len(offsets), max(len(offsets) - 1, 0)
    text, step = bytes(texts), {4: 5, 6: 17, 0: ADDRESS}[kind]
    room, codes = (ctypes.c_ubyte * (count * step))(), (ctypes.c_ubyte * count)()
    if len(text) > 0x7FFFFFFF:
        name = f"v{kind}_read" if kind else "address_read"
        codes[0] = getattr(library, f"ipnetwork_{name}")(text, len(text), room)
        fault = 0
    else:
        name = f"v{kind}_read_column" if kind else "address_read_column"
        where = (ctypes.c_uint32 * starts)(*offsets)
        call = getattr(library, f"ipnetwork_{name}")
        fault = call(text, len(text), where, starts, room, count, codes, count)
    rows[:], faults[:] = memoryview(room).cast("B"), memoryview(codes).cast("B")
    return fault


def read_rows(
    kind: int, texts: ReadableBuffer, offsets: ReadableBuffer
) -> tuple[bytearray, bytearray]:
    """Reads a column of texts: networks of family 4 or 6, or addresses if ``kind`` is 0; and the
    fault of each."""
    given, places = flat(texts), _offsets_of(offsets)
    step, count = {4: 5, 6: 17, 0: ADDRESS}[kind], max(len(places) - 1, 0)
    ends = zip(places, itertools.islice(places, 1, None))
    if (places and places[-1] > given.nbytes) or any(one > other for one, other in ends):
        raise ValueError("the offsets fall, or pass the end of the texts")
    rows, faults = bytearray(count * step), bytearray(count)
    for row, end in _parts(places):
        first = places[row]
        part = [place - first for place in places[row : end + 1]]
        text = given[first : places[end]]
        into = memoryview(rows)[row * step : end * step], memoryview(faults)[row:end]
        answered(_read_part(kind, text, part, *into))
    return rows, faults


def print_rows(kind: int, rows: ReadableBuffer, bits: int) -> tuple[bytearray, bytearray]:
    """The texts of the networks of family 4 or 6, or of addresses if ``kind`` is 0, with these
    structs, and their offsets, of 32 or 64 bits."""
    bits = operator.index(bits)
    if bits not in (32, 64):
        raise ValueError(f"offset_bits is 32 or 64, not {shown(bits)}")
    given = bytes(flat(rows))
    step, longest = {4: (5, 18), 6: (17, 43), 0: (ADDRESS, 39)}[kind]
    count, part = divmod(len(given), step)
    if part:
        what = "networks" if kind else "addresses"
        raise ValueError(f"{len(given)} bytes are no column of {what} of {step} bytes")
    texts, offsets = bytearray(), array.array("Q", [0])
    name = f"v{kind}_print_column" if kind else "address_print_column"
    call = getattr(library, f"ipnetwork_{name}")
    for row in range(0, count, _PART):
        many = min(_PART, count - row)
        room, length = ctypes.create_string_buffer(many * longest), ctypes.c_size_t()
        starts = (ctypes.c_uint32 * (many + 1))()
        each = given[row * step : (row + many) * step]
        fault = call(each, many, room, many * longest, starts, many + 1, ctypes.byref(length))
        if fault:
            raise error(fault if kind else 2, rows)
        offsets.extend(len(texts) + start for start in starts[1:])
        texts += room.raw[: length.value]
    if bits == 64:
        return texts, bytearray(offsets.tobytes())
    if len(texts) > 0x7FFFFFFF:
        raise ValueError(
            "the texts have more than 2147483647 bytes, which is past offsets of 32 bits: ask for "
            "those of 64"
        )
    return texts, bytearray(array.array("I", offsets).tobytes())
