"""What a row of a column may be, and the text for it."""

from __future__ import annotations

import sys
from collections.abc import Iterator, Mapping
from ipaddress import IPv4Address, IPv4Network, IPv6Address, IPv6Network
from numbers import Real
from typing import TYPE_CHECKING, Any, Literal, Protocol, TypeVar, Union, cast

from ._chosen import core
from ._errors import AddressError, shown

if TYPE_CHECKING:
    from _typeshed import ReadableBuffer

    from ._networks import IPv4Network as _OwnV4
    from ._networks import IPv6Network as _OwnV6

    _Address = Union[IPv4Address, IPv6Address]
    _Network = Union[_OwnV4, _OwnV6, IPv4Network, IPv6Network]
    #: A text, as str or as bytes in ASCII; an address or an interface; a network of one address;
    #: or None or NaN, for no text.
    Row = Union[str, bytes, _Address, _Network, float, None]
    _Row = TypeVar("_Row", covariant=True, bound=Row)

    class Rows(Protocol[_Row]):
        """A list, a tuple or an array of rows. A single str or bytes is not one: whether it
        contains something may not be asked of every object."""

        def __contains__(self, value: object, /) -> bool:
            ...

        def __iter__(self) -> Iterator[_Row]:
            ...

    #: What a column may be.
    Column = Union[Rows[Row], Iterator[Row]]
    #: The same, or addresses as ``read_address_column`` returns them.
    Given = Union[Column, bytes, bytearray, memoryview]
    #: Those addresses in any buffer, or a list or a tuple of rows.
    Packed = Union[ReadableBuffer, Rows[Row]]
    #: What asks about one address takes: an address, or a network of one.
    AnyAddress = Union[_Address, _Network]
    #: Of which family the numbers of a column are, if it is one of numbers.
    Numbers = Union[Literal[4, 6], None]
    #: Which rows of a column of numbers have none: an array of truth values, or a number.
    Missing = Any
    #: What becomes of a row that cannot be read.
    Invalid = Literal["raise", False, "null"]

    class _Indexed(Protocol):
        """A Series of pandas."""

        @property
        def index(self) -> Any:
            ...

        @property
        def iloc(self) -> Any:
            ...

    Series = TypeVar("Series", bound=_Indexed)


_NETWORKS = (core.V4, core.V6, IPv4Network, IPv6Network)


def rows_of(given: object) -> list[object]:
    """The rows of a column, as a list. TypeError for an object that is not a column: a single text,
    a buffer, a mapping, a table of columns."""
    kind = type(given).__name__
    if isinstance(given, (str, bytes, bytearray, memoryview, Mapping)):
        raise TypeError(f"a column is a list, an array or a Series of rows, not one {kind}")
    shape = getattr(given, "shape", None)
    if shape is not None and len(shape) != 1:
        raise TypeError(f"a column has one dimension, and this {kind} has {len(shape)}")
    column: Any = given
    rows: list[object] = column.tolist() if hasattr(column, "tolist") else list(column)
    return rows


def _packed(number: int, row: Any) -> TypeError:
    """The error for a row that may be a packed address."""
    return TypeError(
        f"row {number}: bytes are a text in ASCII, and these {len(row)} are none of an address, "
        f"{shown(row)}: a packed address is given as ipaddress.ip_address makes it of its bytes"
    )


def _text(number: int, row: object, missing: tuple[object, ...]) -> Union[str, bytes, None]:
    if isinstance(row, str):
        # A text with half a surrogate pair, which has no UTF-8, is no address; "?" neither.
        return row.encode("utf-8", "replace").decode()
    if isinstance(row, bytes):
        if core.layout([row], None) is None:
            raise _packed(number, row)
        return row
    if any(row is each for each in missing) or (isinstance(row, Real) and row != row):
        return None
    if isinstance(row, IPv4Address):
        return IPv4Address.__str__(row)
    if isinstance(row, IPv6Address):
        return IPv6Address.__str__(row).partition("%")[0]
    if isinstance(row, _NETWORKS):
        network: Any = row
        if network.num_addresses == 1:
            return str(network.network_address).partition("%")[0]
        raise TypeError(f"row {number}: {shown(row)} has more than one address")
    raise TypeError(
        f"row {number}: {type(row).__name__} is neither a text nor an address of ipaddress nor None"
        + (": numbers are taken by the keyword numbers" if isinstance(row, Real) else "")
    )


def texts_of(rows: list[object]) -> list[Union[str, bytes, None]]:
    """Each row as a text, or as None if there is none. TypeError, with the number and the type of
    the row, if a row is not a ``Row``."""
    pandas = sys.modules.get("pandas")
    missing = (None, getattr(pandas, "NA", None), getattr(pandas, "NaT", None))
    return [_text(number, row, missing) for number, row in enumerate(rows)]


def laid_out(rows: list[object]) -> tuple[bytes, bytearray, bytearray]:
    """The rows as texts in Arrow's layout, with offsets of 32 bits, and for each row a byte: the
    fault of a text without an address if the row has no text, else 0. ValueError if the texts have
    2147483648 bytes or more; TypeError if a row is not a ``Row``."""
    missing = getattr(sys.modules.get("pandas"), "NA", None)
    laid = core.layout(rows, missing) or core.layout(list[object](texts_of(rows)), missing)
    if laid is None:
        raise RuntimeError("a text has no bytes")
    return laid


def check_invalid(invalid: object) -> None:
    """ValueError for what is not one of ``Invalid``."""
    if invalid is not False and invalid not in ("raise", "null"):
        raise ValueError(f"invalid is 'raise', False or 'null', not {shown(invalid)}")


def read(column: Column, invalid: Invalid) -> tuple[bytearray, bytearray, bytearray]:
    """The addresses of a column, each of 17 bytes, as ``read_address_column`` returns them; for
    each row a byte that is 0 if it has an address; and another that is 0 if it has a text or an
    address, and else the same as the first. AddressError for a text that names no address if
    ``invalid`` is "raise"."""
    check_invalid(invalid)
    rows = rows_of(column)
    texts, offsets, missing = laid_out(rows)
    addresses, faults = core.read_rows(0, texts, memoryview(offsets).cast("I"))
    if faults != missing:
        number = next(at for at, pair in enumerate(zip(faults, missing)) if pair[0] != pair[1])
        dtype: Any = getattr(column, "dtype", None)
        if getattr(dtype, "kind", None) == "S" and dtype.itemsize in (4, 16):
            raise _packed(number, rows[number])
        if invalid == "raise":
            raise AddressError(
                f"row {number}: {shown(rows[number])} is no address; with invalid=False such a row "
                'has none, and with invalid="null" the answer for it is null'
            )
    return addresses, faults, missing


def addresses_of(
    column: Given, numbers: Numbers = None, missing: Missing = None, invalid: Invalid = "raise"
) -> Union[bytes, bytearray, memoryview]:
    """The addresses of a column, each of 17 bytes, as ``read_address_column`` returns them. A
    buffer of bytes already has this form."""
    if numbers is not None or missing is not None:
        from .columns import read_addresses  # needs NumPy

        given: Any = column
        return read_addresses(given, numbers=numbers, missing=missing, invalid=invalid)[0].data
    if isinstance(column, (bytes, bytearray, memoryview)):
        check_invalid(invalid)
        return column
    return read(column, invalid)[0]


def nulled(column: object, addresses: ReadableBuffer, answers: Any, kind: str = "O") -> Any:
    """The answers for the addresses of a column, which are objects, or a buffer of this kind: null
    where there is no address, as a masked array that is filled by the answer for such a row, or as
    a Series of pandas if the column is one."""
    import numpy

    null = numpy.frombuffer(memoryview(addresses), numpy.uint8)[16::17] == 0
    values: Any = numpy.frombuffer(answers, kind) if kind != "O" else numpy.empty(len(null), "O")
    for row, answer in enumerate(answers if kind == "O" else ()):
        values[row] = answer
    pandas = sys.modules.get("pandas")
    if pandas is None or not isinstance(column, pandas.Series):
        masked: Any = numpy.ma.masked_array
        return masked(values, null, fill_value={"?": False, "q": -1}.get(kind))
    values = values.astype("O")
    values[null] = pandas.NA
    dtype = {"?": "boolean", "q": "Int64"}.get(kind)
    return pandas.Series(pandas.array(values, dtype=dtype), index=column.index)


def like(column: object, values: list[Any]) -> Any:
    """The values as a Series with the index of the column if that is a Series of pandas, else as
    they are."""
    pandas = sys.modules.get("pandas")
    if pandas is None or not isinstance(column, pandas.Series):
        return values
    return pandas.Series(values, index=column.index, dtype=None if values else object)


def packed(column: Packed, invalid: Invalid) -> ReadableBuffer:
    """The addresses of a list or a tuple of rows, or the given buffer, which already has them."""
    if isinstance(column, (list, tuple)):
        return addresses_of(column, invalid=invalid)
    check_invalid(invalid)
    return cast("ReadableBuffer", column)
