"""Check bits (36.212 5.1.1).

Calls release the GIL: no other thread may change the arguments before a call returns.
"""

from __future__ import annotations

from typing import Any

import numpy as np
import numpy.typing as npt

from . import library
from .arrays import Bits, bits_of

_CHECK_BITS = 24


def crc24a(bits: npt.ArrayLike) -> Bits:
    """Return the 24 check bits of bits by g_CRC24A, the first one first (36.212 5.1.1).

    Parameters
    ----------
    bits : array of uint8 or bool
        0 or 1 in an item; any number of them.

    Returns
    -------
    array of uint8
        24 items, 0 or 1.

    Raises
    ------
    Refused
        OUT_OF_RANGE: an item is neither 0 nor 1.

    Examples
    --------
    >>> np.packbits(crc24a([0] * 15 + [1])).tobytes().hex()
    '864cfb'
    """
    return _checked("crc24a", bits)


def crc24b(bits: npt.ArrayLike) -> Bits:
    """Return the 24 check bits of bits by g_CRC24B, the first one first (36.212 5.1.1).

    Parameters
    ----------
    bits : array of uint8 or bool
        0 or 1 in an item; any number of them.

    Returns
    -------
    array of uint8
        24 items, 0 or 1.

    Raises
    ------
    Refused
        OUT_OF_RANGE: an item is neither 0 nor 1.

    Examples
    --------
    >>> np.packbits(crc24b([0] * 15 + [1])).tobytes().hex()
    '800063'
    """
    return _checked("crc24b", bits)


def _checked(name: str, bits: Any) -> Bits:
    data = bits_of(bits)
    out = np.zeros(_CHECK_BITS, np.uint8)
    library.call(name, library.at(data), data.size, library.at(out), out.size)
    return out
