"""Arguments as arrays that can be passed to C."""

from __future__ import annotations

from collections.abc import Sequence
from operator import index
from typing import Any, TypeVar, Union

import numpy as np
import numpy.typing as npt

from .refused import Answer, Refused

Bytes = npt.NDArray[np.uint8]
Bits = npt.NDArray[np.uint8]
Softs = npt.NDArray[np.int8]
Points = npt.NDArray[np.complex64]
#: Bytes: whatever has the array interface or the buffer protocol with items of uint8.
BytesLike = Union[bytes, bytearray, memoryview, Bytes, Sequence[int]]
#: Soft values: whatever has the array interface or the buffer protocol with items of int8, or a sequence of numbers.
SoftsLike = Union[memoryview, Softs, Sequence[int]]
_Scalar = TypeVar("_Scalar", bound=np.generic)


def bytes_of(data: Any, name: str) -> Bytes:
    """Returns bytes as an array, which isn't copied where they are contiguous already."""
    if isinstance(data, (bytes, bytearray)):
        return np.frombuffer(data, np.uint8)
    return _of(
        data,
        np.dtype(np.uint8),
        name,
        "bytes: an array of uint8, what has the buffer protocol with such items, or numbers from 0 to 255",
    )


def softs_of(data: Any, name: str = "values") -> Softs:
    """Returns soft values as an array, which isn't copied where they are contiguous already."""
    return _of(
        data,
        np.dtype(np.int8),
        name,
        "soft values: an array of int8 (see quantise), or numbers from -128 to 127",
    )


def bits_of(data: Any, name: str = "bits") -> Bits:
    """Returns bits, each 0 or 1 in an item, as an array of uint8."""
    given = np.asarray(data)
    bits = given.astype(np.uint8) if given.dtype == np.bool_ else bytes_of(data, name)
    if bits.size and bits.max() > 1:
        raise Refused(Answer.OUT_OF_RANGE, f"{name} are 0 or 1 each")
    return bits


def _of(data: Any, kind: np.dtype[Any], name: str, wanted: str) -> npt.NDArray[Any]:
    listed = isinstance(data, Sequence) and not isinstance(data, (bytes, bytearray, memoryview, str))
    given = _of_list(data, kind, name, wanted) if listed else np.asarray(data)
    if given.dtype != kind:
        raise TypeError(f"{name} are {wanted}; these are {given.dtype}")
    return np.ascontiguousarray(given).reshape(-1)


def _of_list(data: Sequence[Any], kind: np.dtype[Any], name: str, wanted: str) -> npt.NDArray[Any]:
    """Returns the whole numbers of a sequence as an array, and refuses those that don't fit its type."""
    given = np.asarray(data)
    if given.size and given.dtype.kind not in "iu":
        # Some are no whole numbers, or too great for each type of numpy.
        try:
            given = np.array([index(it) for it in np.asarray(data, object).flat], object)
        except TypeError:
            raise TypeError(f"{name} are {wanted}") from None
    limits = np.iinfo(kind)
    if given.size and (given.min() < limits.min or given.max() > limits.max):
        raise Refused(Answer.OUT_OF_RANGE, f"{name} are {wanted}")
    return given.astype(kind)


def numbers_of(data: Any, kinds: str, name: str, wanted: str) -> npt.NDArray[Any]:
    """Returns numbers as an array of one of numpy's kinds, which keeps their shape."""
    given = np.asarray(data)
    if given.size and given.dtype.kind not in kinds:
        raise TypeError(f"{name} are {wanted}; these are {given.dtype}")
    return given


def room(
    out: npt.NDArray[_Scalar] | None, count: int, kind: type[_Scalar], *inputs: npt.NDArray[Any]
) -> npt.NDArray[_Scalar]:
    """Returns the array that a call writes to: a new one of so many items, or the caller's, which has to be contiguous
    and apart from what the call reads."""
    if out is None:
        return np.zeros(count, kind)
    if not isinstance(out, np.ndarray) or out.dtype != kind:
        raise TypeError(f"out is an array of {np.dtype(kind)}")
    if not (out.flags.c_contiguous and out.flags.writeable):
        raise ValueError("out is contiguous and can be written")
    if any(np.may_share_memory(out, it) for it in inputs):
        raise ValueError("out shares no memory with what is read")
    return out.reshape(-1)


def _whole(value: Any) -> int:
    try:
        return index(value)
    except TypeError:
        raise TypeError(f"a whole number is wanted, and {value!r} is a {type(value).__name__}") from None


def within(value: Any, bits: int) -> int:
    """Returns a number of so many bits, each of which the library accepts, and refuses any other here."""
    whole = _whole(value)
    if not 0 <= whole < 2**bits:
        raise Refused(Answer.OUT_OF_RANGE)
    return whole


def number(value: Any, bits: int = 32) -> int:
    """Returns a number as C takes it: one that doesn't fit becomes the greatest, which the library refuses as it would
    refuse the number itself."""
    whole = _whole(value)
    most: int = 2**bits - 1
    return whole if 0 <= whole <= most else most


def buffer_size(n_ir: Any) -> int:
    """Returns N_IR as C takes it: a negative one becomes 1, which is too small for each payload; one above the range
    becomes the greatest, which is a full buffer as well."""
    whole = _whole(n_ir)
    return 1 if whole < 0 else min(whole, 2**32 - 1)


def pack(bits: Any) -> Bytes:
    """Return bits as bytes, the highest bit first, with unused low bits 0.

    Parameters
    ----------
    bits : array of uint8 or bool
        0 or 1 in an item; any number of them.

    Returns
    -------
    array of uint8
        ceil(count / 8) bytes.

    Raises
    ------
    Refused
        OUT_OF_RANGE: an item is neither 0 nor 1.

    Examples
    --------
    >>> pack([1, 0, 0, 0, 0, 0, 0, 1, 1]).tolist()
    [129, 128]
    """
    return np.packbits(bits_of(bits))


def unpack(data: Any, count: int | None = None) -> Bits:
    """Return the first bits of bytes, or all.

    Parameters
    ----------
    data : array of uint8, or bytes
        Eight bits in a byte, the highest first.
    count : int, optional
        How many bits: 0 to eight for each byte; else all.

    Returns
    -------
    array of uint8
        0 or 1 in an item.

    Raises
    ------
    Refused
        BAD_BITS: there are fewer.

    Examples
    --------
    >>> unpack(bytes([129, 128]), 9).tolist()
    [1, 0, 0, 0, 0, 0, 0, 1, 1]
    """
    given = bytes_of(data, "data")
    if count is None:
        return np.unpackbits(given)
    wanted = number(count, 64)
    if wanted > 8 * given.size:
        raise Refused(Answer.BAD_BITS)
    return np.unpackbits(given, count=wanted)
