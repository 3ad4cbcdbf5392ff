"""Columns over NumPy: reads addresses and looks them up in a set or a table, in a few calls for all
rows.

>>> from ipnetwork import AddressSet, ip_network
>>> tens = AddressSet([ip_network("10.0.0.0/8")])
>>> is_member(["10.1.9.32", "8.8.8.8", None], tens).tolist()
[True, False, False]

A column is a list, a NumPy array or a Series of pandas, and each of its rows is one of these:

- a text, as ``str``, or as ``bytes`` in ASCII;
- an address or an interface of ``ipaddress``; one with a zone is asked by its address;
- a network of this package or of ``ipaddress`` that has one address, which is then the row's;
- None, NaN, pandas.NA or pandas.NaT: a row without a text, and thus without an address.

A text that names no address, such as one with a space, a port or a zone, is an AddressError, which
is a ValueError, with the number of the row, counted from 0, and the text. With ``invalid=False``
such a row is like one without a text: no member, and found in no table. With ``invalid="null"`` the
answers for rows without an address, missing or not, are null: the result is a masked array, or for
a Series of pandas a Series of a nullable type, with its index. As an index NumPy takes a masked
array without its mask: use ``answers.filled(True)`` if the members are those that are refused.

>>> is_member(["10.1.9.32", "10.1.9.32:443"], tens)  # doctest: +ELLIPSIS
Traceback (most recent call last):
...
ipnetwork.AddressError: row 1: '10.1.9.32:443' is no address; ...
>>> is_member(["10.1.9.32", "10.1.9.32:443", None], tens, invalid="null").tolist()
[True, None, None]

Any other row is a TypeError that gives its number and its type. A ``str`` or a table instead of a
column is a TypeError too, and so are ``bytes`` that are not the text of an address and may be a
packed one: of 4 or 16 bytes, or at most 17 and not printable ASCII; in an array of ``S4`` or ``S16``,
of which NumPy drops the zeros at the end of a row, all that are not the text of an address. A
column in Arrow's layout needs none of this: its buffers go to ``ipnetwork.read_address_column`` as
they are.

Numbers are accepted only if ``numbers`` is given. With 4, the column is an array of integers, each
an IPv4 address as from ``int``. With 6, it is an array with two 64-bit integers in each row, the
higher half of an IPv6 address first. A number that is not that of an address is a ValueError, or
what ``invalid`` says. A row that is masked in a masked array, or missing in a Series of pandas, has
no address; neither has a row that ``missing`` names, as an array with a Boolean for each row, or as
the number (with 6 the pair of numbers) that means no address.

With ``mapped``, or for a set or a table that has this option, what is said of either form counts:
an IPv4-mapped IPv6 address is a member if the IPv4 address, or the IPv6 address itself, is
one; its longest network is that of the IPv4 address, and if there is none that of the IPv6 address;
and so for a network within ::ffff:0:0/96.

>>> from ipaddress import ip_address
>>> is_member([ip_address("10.1.9.32"), b"10.0.0.1", None], tens).tolist()
[True, True, False]
>>> is_member(numpy.array([0x0A010920, 0], numpy.uint32), tens, numbers=4).tolist()
[True, False]
>>> read_addresses(numpy.array([0x0A010920, -1]), numbers=4, missing=-1)[1].tolist()
[True, False]
"""

from __future__ import annotations

from typing import TYPE_CHECKING, Any, Literal, Union, overload

import numpy

from . import AddressSet, IPv4Network, IPv6Network, Table
from ._chosen import core
from ._errors import shown
from ._rows import check_invalid, laid_out, nulled, read, rows_of

if TYPE_CHECKING:
    from numpy.typing import NDArray

    from ._rows import Column, Invalid, Missing, Numbers, Series

    _Masked = numpy.ma.MaskedArray[Any, Any]

__all__ = ["find", "is_member", "layout", "read_addresses"]

_ROW = 17  # the bytes of an address of either family, as read_address_column gives it


def layout(texts: Column) -> tuple[bytearray, NDArray[numpy.uint32]]:
    """The texts in Arrow's layout: their bytes, and the offsets, one more than texts. ValueError if
    the texts have 2147483648 bytes or more; TypeError if a row is not one of those above.

    >>> texts, offsets = layout(["::1", None, "8.8.8.8"])
    >>> bytes(texts), offsets.tolist()
    (b'::18.8.8.8', [0, 3, 3, 10])
    """
    whole, offsets, _ = laid_out(rows_of(texts))
    return bytearray(whole), numpy.frombuffer(offsets, numpy.uint32)


def _array_of(given: Any) -> tuple[NDArray[Any], NDArray[numpy.bool_]]:
    """The numbers of a column, and which of them are masked or, in pandas, missing."""
    if isinstance(given, numpy.ma.MaskedArray):
        masked: Any = numpy.ma
        return masked.getdata(given), masked.getmaskarray(given)
    nullable = getattr(getattr(given, "dtype", None), "numpy_dtype", None)
    if nullable is not None and nullable.kind in "iu" and hasattr(given, "isna"):
        return given.to_numpy(dtype=nullable, na_value=0), numpy.asarray(given.isna(), numpy.bool_)
    array = numpy.asarray(given)
    return array, numpy.zeros(array.shape, numpy.bool_)


def _of_each_row(truths: NDArray[numpy.bool_]) -> NDArray[numpy.bool_]:
    """For each row, whether one of its values is true."""
    answers: NDArray[numpy.bool_] = truths if truths.ndim == 1 else truths.any(axis=1)
    return answers


def _missing(array: NDArray[Any], missing: Missing, numbers: int) -> NDArray[numpy.bool_]:
    """Which rows of an array of numbers have no address, as ``missing`` says."""
    wanted = numpy.asarray(missing)
    if wanted.dtype == numpy.bool_ and wanted.shape == array.shape[:1]:
        return wanted
    if wanted.dtype.kind not in "iu" or wanted.shape != array.shape[1:]:
        pair = "a number" if numbers == 4 else "a pair of numbers, the higher half first"
        raise TypeError(f"missing is {pair}, or an array with a truth value for each row")
    there = wanted.astype(array.dtype)  # a number that is none of the type is in no row
    same: NDArray[numpy.bool_] = (array == there) & (there.astype(object) == wanted.astype(object))
    answers: NDArray[numpy.bool_] = same if same.ndim == 1 else same.all(axis=1)
    return answers


def _of_numbers(
    given: object, numbers: int, missing: Missing, invalid: Invalid
) -> tuple[NDArray[numpy.uint8], NDArray[numpy.bool_], NDArray[numpy.bool_]]:
    """The addresses whose numbers a column has; which rows have one; and which are wrong."""
    if numbers not in (4, 6):
        given_is = shown(numbers)
        raise ValueError(f"numbers is 4 or 6, for the family of the addresses, not {given_is}")
    array, hidden = _array_of(given)
    if numbers == 4:
        fits, width, wanted = array.ndim == 1, 4, "whole numbers"
    else:
        fits, width = array.shape[1:] == (2,) and array.dtype.itemsize == 8, 16
        wanted = "whole numbers of 64 bits, two in each row"
    if array.dtype.kind not in "iu" or not fits:
        given_is = f"one of {array.dtype!s:.60} and of shape {array.shape}"
        raise TypeError(f"numbers={numbers} takes an array of {wanted}, not {given_is}")
    absent = _of_each_row(hidden)
    if missing is not None:
        absent = absent | _missing(array, missing, numbers)
    wrong = array < 0
    if numbers == 4 and array.dtype.itemsize > 4:
        wrong = wrong | (array > 0xFFFFFFFF)
    wrong = _of_each_row(wrong) & ~absent
    if invalid == "raise" and wrong.any():
        row = int(numpy.argmax(wrong))
        raise ValueError(f"row {row}: {array[row]} is not the number of an IPv{numbers} address")
    highest_first = array.astype(">u4" if numbers == 4 else ">u8", order="C")
    rows = numpy.zeros((len(array), _ROW), numpy.uint8)
    rows[:, :width] = highest_first.view(numpy.uint8).reshape(-1, width)
    rows[:, 16] = width
    present = ~(absent | wrong)
    rows[~present] = 0
    return rows, present, wrong


def read_addresses(
    texts: Column,
    *,
    numbers: Numbers = None,
    missing: Missing = None,
    unmapped: bool = False,
    invalid: Invalid = "raise",
) -> tuple[NDArray[numpy.uint8], NDArray[numpy.bool_]]:
    """The addresses of a column, and for each row whether it has one. An address is 17 bytes, as
    ``ipnetwork.read_address_column`` returns it. With ``unmapped``, each IPv4-mapped address is
    replaced by the IPv4 address, so that nothing tells of the IPv6 one. With ``invalid="null"``,
    the second array is masked where a text names no address, and False where there is no text.

    >>> addresses, present = read_addresses(["8.8.8.8", None])
    >>> addresses[0, :4].tolist(), present.tolist()
    ([8, 8, 8, 8], [True, False])
    >>> read_addresses(["8.8.8.8", None, "8.8.8"], invalid="null")[1].tolist()
    [True, False, None]
    """
    check_invalid(invalid)
    if numbers is not None:
        rows, present, wrong = _of_numbers(texts, numbers, missing, invalid)
    elif missing is not None:
        raise TypeError("missing is for a column of numbers: give numbers too")
    else:
        addresses, faults, none = read(texts, invalid)
        rows = numpy.frombuffer(addresses, numpy.uint8).reshape(-1, _ROW)
        present = numpy.frombuffer(faults, numpy.uint8) == 0
        wrong = numpy.frombuffer(none, numpy.uint8) != numpy.frombuffer(faults, numpy.uint8)
    if unmapped:
        rows = numpy.frombuffer(core.unmapped_rows(rows.data), numpy.uint8).reshape(-1, _ROW)
    if invalid == "null":
        masked: Any = numpy.ma.masked_array
        present = masked(present, wrong, fill_value=False)
    return rows, present


def _addresses(
    given: Any, numbers: Numbers, missing: Missing, invalid: Invalid
) -> Union[bytearray, memoryview]:
    """The addresses of a column, or those that ``read_addresses`` returned."""
    if numbers is not None or missing is not None:
        return read_addresses(given, numbers=numbers, missing=missing, invalid=invalid)[0].data
    if not isinstance(given, numpy.ndarray) or given.dtype != numpy.uint8 or given.ndim != 2:
        return read(given, invalid)[0]
    check_invalid(invalid)
    if given.shape[1] != _ROW:
        raise TypeError(f"addresses of read_addresses have {_ROW} bytes each, not {given.shape[1]}")
    rows, hidden = _array_of(given)
    if hidden.any():
        rows = numpy.where(_of_each_row(hidden)[:, None], numpy.uint8(0), rows)
    return numpy.ascontiguousarray(rows).data


@overload
def is_member(
    given: Column,
    which: Union[AddressSet, IPv4Network, IPv6Network],
    *,
    numbers: Numbers = ...,
    missing: Missing = ...,
    mapped: bool = ...,
    invalid: Literal["raise", False] = ...,
) -> NDArray[numpy.bool_]:
    ...


@overload
def is_member(
    given: Series,
    which: Union[AddressSet, IPv4Network, IPv6Network],
    *,
    numbers: Numbers = ...,
    missing: Missing = ...,
    mapped: bool = ...,
    invalid: Literal["null"],
) -> Series:
    ...


@overload
def is_member(
    given: Column,
    which: Union[AddressSet, IPv4Network, IPv6Network],
    *,
    numbers: Numbers = ...,
    missing: Missing = ...,
    mapped: bool = ...,
    invalid: Literal["null"],
) -> _Masked:
    ...


def is_member(
    given: Any,
    which: Union[AddressSet, IPv4Network, IPv6Network],
    *,
    numbers: Numbers = None,
    missing: Missing = None,
    mapped: bool = False,
    invalid: Invalid = "raise",
) -> Any:
    """For each row of a column, whether its address is in a set or a network. The column is as
    described above, or has addresses as ``read_addresses`` returns them.

    >>> from ipnetwork import ip_network
    >>> tens = AddressSet([ip_network("10.0.0.0/8")])
    >>> is_member(["::ffff:10.1.9.32"], tens).tolist()
    [False]
    >>> is_member(["::ffff:10.1.9.32"], tens, mapped=True).tolist()
    [True]
    """
    chosen = which if isinstance(which, AddressSet) else AddressSet([which])
    addresses = _addresses(given, numbers, missing, invalid)
    search = chosen._indexed()
    answers = core.set_contains_column((*search[:4], True) if mapped else search, addresses)
    if invalid == "null":
        return nulled(given, addresses, answers, "?")
    return numpy.frombuffer(answers, numpy.bool_)


@overload
def find(
    given: Column,
    table: Table[Any],
    *,
    numbers: Numbers = ...,
    missing: Missing = ...,
    mapped: bool = ...,
    invalid: Literal["raise", False] = ...,
) -> NDArray[numpy.int64]:
    ...


@overload
def find(
    given: Series,
    table: Table[Any],
    *,
    numbers: Numbers = ...,
    missing: Missing = ...,
    mapped: bool = ...,
    invalid: Literal["null"],
) -> Series:
    ...


@overload
def find(
    given: Column,
    table: Table[Any],
    *,
    numbers: Numbers = ...,
    missing: Missing = ...,
    mapped: bool = ...,
    invalid: Literal["null"],
) -> _Masked:
    ...


def find(
    given: Any,
    table: Table[Any],
    *,
    numbers: Numbers = None,
    missing: Missing = None,
    mapped: bool = False,
    invalid: Invalid = "raise",
) -> Any:
    """For each row of a column, the number of the longest network of a table that has the address,
    or -1. The column is as for ``is_member``.

    >>> from ipnetwork import Table, ip_network
    >>> table = Table([ip_network("10.0.0.0/8"), ip_network("10.1.0.0/16")])
    >>> find(["10.1.9.32", "10.2.0.0", "8.8.8.8", None], table).tolist()
    [1, 0, -1, -1]
    """
    if not isinstance(table, Table):
        raise TypeError(
            f"find takes a Table, not {type(table).__name__}: a PrefixTable gives values, by join"
        )
    addresses = _addresses(given, numbers, missing, invalid)
    search = table._made()
    answers = core.table_find_column(search._replace(mapped=True) if mapped else search, addresses)
    if invalid == "null":
        return nulled(given, addresses, answers, "q")
    return numpy.frombuffer(answers, numpy.int64)
