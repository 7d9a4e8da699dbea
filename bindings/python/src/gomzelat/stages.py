"""The sender stage by stage, to find where another codec differs (36.212 5.1.1 to 5.1.4).

Calls release the GIL: no other thread may change the arguments before a call returns.
"""

from __future__ import annotations

import ctypes
from typing import Any

import numpy as np
import numpy.typing as npt

from . import library
from .arrays import Bits, BytesLike, buffer_size, bytes_of, number
from .sender import MOST_BITS, plan
from .values import Piece, Transmission, known

#: What stands for a NULL in a coded stream.
NULL = 2


def code_block(payload: BytesLike, r: int) -> Bits:
    """Return the bits of a code block (36.212 5.1.1, 5.1.2).

    Parameters
    ----------
    payload : array of uint8, or bytes
        The transport block: 1 to 18,722 bytes.
    r : int
        The code block, counted from 0.

    Returns
    -------
    array of uint8
        K items, 0 or 1; fillers are 0, check bits are included.

    Raises
    ------
    Refused
        BAD_LENGTH, BAD_BLOCK.

    Examples
    --------
    >>> np.packbits(code_block(b"\\0\\1", 0)).tobytes().hex()
    '0001864cfb'
    """
    data = bytes_of(payload, "payload")
    out = np.zeros(_size(data.size, r), np.uint8)
    library.call("code_block", library.at(data), data.size, number(r, 64), library.at(out), out.size)
    return out


def streams(payload: BytesLike, r: int) -> Bits:
    """Return the coded streams d0, d1 and d2 of a code block (36.212 5.1.3.2).

    Parameters
    ----------
    payload : array of uint8, or bytes
        The transport block: 1 to 18,722 bytes.
    r : int
        The code block, counted from 0.

    Returns
    -------
    array of uint8, of shape (3, K + 4)
        0, 1, or NULL, which is 2.

    Raises
    ------
    Refused
        BAD_LENGTH, BAD_BLOCK.

    Examples
    --------
    >>> streams(b"\\0", 0)[:, :10]
    array([[2, 2, 2, 2, 2, 2, 2, 2, 0, 0],
           [2, 2, 2, 2, 2, 2, 2, 2, 0, 0],
           [0, 0, 0, 0, 0, 0, 0, 0, 0, 0]], dtype=uint8)
    """
    data = bytes_of(payload, "payload")
    out = np.zeros((3, _size(data.size, r) + 4), np.uint8)
    library.call("streams", library.at(data), data.size, number(r, 64), library.at(out), out.size)
    return out


def spots(length: int, r: int) -> npt.NDArray[np.int32]:
    """Return which bit is at each place of the circular buffer of code block `r` (36.212 5.1.4.1).

    Parameters
    ----------
    length : int
        The payload's bytes: 1 to 18,722.
    r : int
        The code block, counted from 0.

    Returns
    -------
    array of int32, of shape (K_w, 2)
        For each place the stream, 0 to 2, and the index in it; -1 and -1 at a NULL.

    Raises
    ------
    Refused
        BAD_LENGTH, BAD_BLOCK.

    Examples
    --------
    >>> spots(2, 0)[:4].tolist()
    [[-1, -1], [0, 12], [-1, -1], [0, 28]]
    """
    rows = (_size(length, r) + 4 + 31) // 32
    out = np.zeros(96 * rows, np.uint32)
    library.call("spots", number(length, 64), number(r, 64), library.at(out), out.size)
    pairs: npt.NDArray[np.int32] = np.stack([out >> 16, out & 0xFFFF], axis=1).astype(np.int32)
    pairs[out == 2**32 - 1] = -1
    return pairs


def piece(length: int, r: int, transmission: Transmission, n_ir: int = 0) -> Piece:
    """Return what code block `r` of a payload sends in a transmission (36.212 5.1.4.1.2).

    Parameters
    ----------
    length : int
        The payload's bytes: 1 to 18,722.
    r : int
        The code block, counted from 0.
    transmission : Transmission
        Its numbers.
    n_ir : int
        As for `codeword`.

    Returns
    -------
    Piece
        K, its fillers, K_w, N_cb, k0 and E.

    Raises
    ------
    Refused
        BAD_LENGTH, BAD_QM, BAD_NL, BAD_G, BAD_VERSION, BAD_BUFFER, BAD_BLOCK.

    Examples
    --------
    >>> piece(2, 0, Transmission(qm=2, g=132, rv=0)).bits
    132
    """
    out = library.CPiece()
    told, limit = known(transmission, Transmission).in_c(), buffer_size(n_ir)
    library.call("piece", number(length, 64), number(r, 64), told, limit, ctypes.byref(out))
    return Piece(**{name: getattr(out, name) for name, _ in library.CPiece._fields_})  # type: ignore[misc]


def select(payload: BytesLike, r: int, transmission: Transmission, n_ir: int = 0) -> Bits:
    """Return the bits that a code block sends in a transmission (36.212 5.1.4.1.2).

    Parameters
    ----------
    payload : array of uint8, or bytes
        The transport block: 1 to 18,722 bytes.
    r : int
        The code block, counted from 0.
    transmission : Transmission
        Its numbers.
    n_ir : int
        As for `codeword`.

    Returns
    -------
    array of uint8
        E items, 0 or 1. Block after block, these are the bits of the codeword.

    Raises
    ------
    Refused
        BAD_LENGTH, BAD_QM, BAD_NL, BAD_G, BAD_VERSION, BAD_BUFFER, BAD_BLOCK.

    Examples
    --------
    >>> select(b"\\0\\1", 0, Transmission(qm=2, g=8, rv=1)).tolist()
    [0, 0, 1, 0, 0, 1, 0, 0]
    """
    data, told = bytes_of(payload, "payload"), known(transmission, Transmission).in_c()
    # No code block sends more than the transmission has.
    out = np.zeros(min(told.g, MOST_BITS), np.uint8)
    words = (library.at(data), data.size, number(r, 64), told, buffer_size(n_ir), library.at(out), out.size)
    library.call("select", *words)
    return out[: piece(data.size, r, transmission, n_ir).bits]


def _size(length: int, r: Any) -> int:
    """Returns K of a code block, or that of the last one where there is none of that number."""
    return plan(length).size(number(r, 64))
