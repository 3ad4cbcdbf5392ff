"""Joins of columns with the values of a table."""

from __future__ import annotations

from typing import TYPE_CHECKING, Any, Generic, Literal, TypeVar, Union, overload

from ._rows import addresses_of, like, nulled

if TYPE_CHECKING:
    from _typeshed import ReadableBuffer

    from ._rows import Given, Invalid, Missing, Numbers, Series

Value = TypeVar("Value")
_Default = TypeVar("_Default")


class Joins(Generic[Value]):
    """What tables with values have in common."""

    __slots__ = ()

    def _joined(self, addresses: ReadableBuffer, default: object) -> list[Any]:
        """The value for each address of a column, or the default."""
        raise NotImplementedError

    @overload
    def join(
        self,
        column: Series,
        default: object = ...,
        *,
        numbers: Numbers = ...,
        missing: Missing = ...,
        invalid: Invalid = ...,
    ) -> Series:
        ...

    @overload
    def join(
        self,
        column: Given,
        *,
        numbers: Numbers = ...,
        missing: Missing = ...,
        invalid: Literal["raise", False] = ...,
    ) -> list[Union[Value, None]]:
        ...

    @overload
    def join(
        self,
        column: Given,
        default: _Default,
        *,
        numbers: Numbers = ...,
        missing: Missing = ...,
        invalid: Literal["raise", False] = ...,
    ) -> list[Union[Value, _Default]]:
        ...

    @overload
    def join(
        self,
        column: Given,
        default: object = ...,
        *,
        numbers: Numbers = ...,
        missing: Missing = ...,
        invalid: Literal["null"],
    ) -> Any:
        ...

    def join(
        self,
        column: Any,
        default: object = None,
        *,
        numbers: Numbers = None,
        missing: Missing = None,
        invalid: Invalid = "raise",
    ) -> Any:
        """For each row of a column the value of the longest network that has its address, or the
        default if no network has it or the row has no address. The result is a list, or for a
        Series of pandas a Series with its index. The column is a list, an array or a Series of
        rows; with ``numbers``, one of numbers, as for ``ipnetwork.columns``; or the bytes that
        ``read_address_column`` returns. ValueError for a ``Table`` that was made without values.

        AddressError for a row whose text names no address, unless ``invalid`` is False, and then
        the row has none, or "null": then the result is null for each row without an address, as a
        masked array of NumPy, or for a Series as one of the nullable types of pandas.

        >>> table = PrefixTable({ip_network("10.0.0.0/8"): "lab", ip_network("::/0"): "office"})
        >>> table.join(["10.1.2.3", "8.8.8.8", None, "2001:db8::1"])
        ['lab', None, None, 'office']
        >>> table.join(["10.1.2.3", "10.1.2.3:443"])  # doctest: +ELLIPSIS
        Traceback (most recent call last):
        ...
        ipnetwork.AddressError: row 1: '10.1.2.3:443' is no address; ...
        """
        addresses = addresses_of(column, numbers, missing, invalid)
        values = self._joined(addresses, default)
        if invalid == "null":
            return nulled(column, addresses, values)
        return like(column, values)
