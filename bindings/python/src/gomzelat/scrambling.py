"""Scrambling of bits, and descrambling of soft values (36.211).

Calls release the GIL: no other thread may change the arguments before a call returns.
"""

from __future__ import annotations

import ctypes
from dataclasses import dataclass
from typing import Any

import numpy as np
import numpy.typing as npt

from . import library
from .arrays import Bytes, BytesLike, Softs, SoftsLike, bytes_of, number, room, softs_of
from .values import known


@dataclass(frozen=True)
class Scrambling:
    """The parameters of a scrambling sequence (36.211 6.3.1; 5.3.1 with q = 0).

    Attributes
    ----------
    rnti : int
        n_RNTI, the terminal's identity: 0 to 65,535.
    q : int
        The number of the codeword: 0 or 1; 0 in the uplink.
    slot : int
        n_s, the slot within the radio frame: 0 to 19.
    cell : int
        The identity of the cell: 0 to 503.

    Examples
    --------
    >>> Scrambling(rnti=61, slot=4, cell=7)
    Scrambling(rnti=61, q=0, slot=4, cell=7)
    """

    rnti: int
    q: int = 0
    slot: int = 0
    cell: int = 0

    def in_c(self) -> ctypes.Structure:
        return library.CScrambling(number(self.rnti), number(self.q), number(self.slot), number(self.cell))


def scrambling_init(scrambling: Scrambling) -> int:
    """Return c_init, which initialises the scrambling sequence (36.211 6.3.1).

    Parameters
    ----------
    scrambling : Scrambling
        n_RNTI, q, n_s and the cell's identity.

    Returns
    -------
    int
        31 bits.

    Raises
    ------
    Refused
        BAD_SCRAMBLING.

    Examples
    --------
    >>> scrambling_init(Scrambling(rnti=1, q=0, slot=2, cell=3))
    16899
    """
    out = ctypes.c_uint32()
    library.call("init", known(scrambling, Scrambling).in_c(), ctypes.byref(out))
    return int(out.value)


def scramble(
    bits: BytesLike, scrambling: Scrambling, count: int | None = None, *, out: Bytes | None = None
) -> Bytes:
    """Return bits with the scrambling sequence added, modulo 2 (36.211 6.3.1, 5.3.1). It is its own inverse.

    Parameters
    ----------
    bits : array of uint8, or bytes
        Eight bits in a byte, the highest first.
    scrambling : Scrambling
        The parameters of the sequence.
    count : int, optional
        How many bits there are; else all. Unused low bits of the last byte become 0.
    out : array of uint8, optional
        Where they are written, which may be `bits` itself: contiguous, at least as many items.

    Returns
    -------
    array of uint8
        ceil(count / 8) bytes. With `out`, the start of it.

    Raises
    ------
    Refused
        BAD_BITS, BAD_SCRAMBLING.

    Examples
    --------
    >>> scramble(bytes(4), Scrambling(rnti=0)).tobytes().hex()
    '021a127a'
    """
    data = bytes_of(bits, "bits")
    size = 8 * data.size if count is None else number(count, 64)
    told, made = known(scrambling, Scrambling).in_c(), _copied(data, out)
    library.call("scramble", library.at(made), made.size, size, told)
    return made[: (size + 7) // 8]


def descramble(values: SoftsLike, scrambling: Scrambling, *, out: Softs | None = None) -> Softs:
    """Return soft values of the bits before they were scrambled, negated where the sequence is 1 (36.211 6.3.1, 5.3.1).

    Parameters
    ----------
    values : array of int8
        The soft values of scrambled bits; -128 is taken as -127.
    scrambling : Scrambling
        The parameters of the sequence.
    out : array of int8, optional
        Where they are written, which may be `values` itself: contiguous, at least as many items.

    Returns
    -------
    array of int8
        As many, from -127 to 127. With `out`, the start of it.

    Raises
    ------
    Refused
        BAD_SCRAMBLING.

    Examples
    --------
    >>> descramble([9] * 8, Scrambling(rnti=0)).tolist()
    [9, 9, 9, 9, 9, 9, -9, 9]
    """
    told, made = known(scrambling, Scrambling).in_c(), _copied(softs_of(values), out)
    library.call("descramble", library.at(made), made.size, told)
    return made


def _copied(data: npt.NDArray[Any], out: npt.NDArray[Any] | None) -> npt.NDArray[Any]:
    """Returns an array of the caller, or a new one, with the data in front, for a call that works in place."""
    made = room(out, data.size, data.dtype.type)[: data.size]
    if made.size < data.size:
        raise ValueError("out is as long as what is read")
    np.copyto(made, data)
    return made
