"""Constellation mapping and demapping (36.211).

Calls release the GIL: no other thread may change the arguments before a call returns.
"""

from __future__ import annotations

import math

import numpy as np
import numpy.typing as npt

from . import library
from .arrays import BytesLike, Points, Softs, bytes_of, number, numbers_of, room

#: What points are multiplied by so that their mean power is 1, by Q_m (36.211 7.1.2 to 7.1.4).
UNIT_POWER = {2: 1 / math.sqrt(2), 4: 1 / math.sqrt(10), 6: 1 / math.sqrt(42)}
_MOST_COORDINATE = 4000


def map_bits(bits: BytesLike, qm: int, count: int | None = None) -> Points:
    """Return the constellation points of bits (36.211 7.1.2 to 7.1.4), Q_m bits each.

    Parameters
    ----------
    bits : array of uint8, or bytes
        Eight bits in a byte, the highest first.
    qm : int
        Q_m: 2 (QPSK), 4 (16QAM) or 6 (64QAM).
    count : int, optional
        How many bits there are, a multiple of Q_m; else all.

    Returns
    -------
    array of complex64
        Coordinates are odd numbers: -1 and 1, -3 to 3, or -7 to 7. Times `UNIT_POWER[qm]` they are those of the
        standard.

    Raises
    ------
    Refused
        BAD_QM, BAD_BITS, BAD_POINTS.

    Examples
    --------
    >>> map_bits(bytes([0b0000_1011]), 4).tolist()
    [(1+1j), (-3+3j)]
    """
    data = bytes_of(bits, "bits")
    size, order = 8 * data.size if count is None else number(count, 64), number(qm)
    # More bits than there are are refused, with no need of room.
    out = np.zeros((min(size, 8 * data.size) // 2, 2), np.int32)
    library.call("map", library.at(data), data.size, size, order, library.at(out), len(out))
    return out[: size // order].astype(np.float32).view(np.complex64).reshape(-1)


def demap_points(points: npt.ArrayLike, qm: int, amp: int, *, out: Softs | None = None) -> Softs:
    """Return the Q_m soft values of each received point (those of 36.211 7.1.2 to 7.1.4).

    A bit's value is the squared distance to the nearest point whose bit is 1, less that to the nearest whose bit is 0,
    divided by four times the amplitude, rounded toward 0, and clamped to -127 to 127.

    Parameters
    ----------
    points : array of complex numbers
        Those of `map_bits` times the amplitude, and noise. Coordinates are rounded to whole numbers, which are from
        -4000 to 4000.
    qm : int
        Q_m: 2, 4 or 6.
    amp : int
        The amplitude: 1 to 127.
    out : array of int8, optional
        Where they are written: contiguous, at least Q_m items for each point.

    Returns
    -------
    array of int8
        Q_m items for each point, positive where 0 is likelier. With `out`, the start of it.

    Raises
    ------
    Refused
        BAD_QM, BAD_AMP, BAD_POINTS, SHORT_OUTPUT.

    Examples
    --------
    >>> demap_points([40 + 40j, -120 + 120j], 4, 40).tolist()
    [40, 40, 40, 40, -127, 127, -40, -40]
    """
    taken = numbers_of(points, "biufc", "points", "complex numbers")
    given = np.ascontiguousarray(taken, dtype=np.complex128).reshape(-1).view(np.float64)
    # What isn't a number, or is out of range, is refused by the library.
    told = np.where(np.isnan(given), np.inf, given)
    whole = np.clip(np.rint(told), -_MOST_COORDINATE - 1, _MOST_COORDINATE + 1).astype(np.int32)
    count, order = whole.size // 2, number(qm)
    made = room(out, count * min(order, max(UNIT_POWER)), np.int8, whole)
    library.call("demap", library.at(whole), count, order, number(amp), library.at(made), made.size)
    return made[: count * order]
