"""The sender: segmentation and codewords (36.212 5.1.1 to 5.1.5).

Calls release the GIL: no other thread may change the arguments before a call returns.
"""

from __future__ import annotations

import ctypes
from collections.abc import Sequence

import numpy as np

from . import library
from .arrays import Bytes, BytesLike, buffer_size, bytes_of, number, room, unpack
from .values import Plan, Transmission, in_c, known

MOST_BYTES = 18722
MOST_BITS = 1_000_000


def plan(length: int) -> Plan:
    """Return how a payload is cut into code blocks (36.212 5.1.2).

    Parameters
    ----------
    length : int
        The payload's bytes: 1 to 18,722.

    Returns
    -------
    Plan
        The code blocks, their sizes and fillers.

    Raises
    ------
    Refused
        BAD_LENGTH.

    Examples
    --------
    >>> plan(9422)
    Plan(c=13, k_plus=5824, k_minus=5760, c_plus=13, c_minus=0, f=0)
    """
    out = library.CPlan()
    library.call("plan", number(length, 64), ctypes.byref(out))
    return Plan(**{name: getattr(out, name) for name, _ in library.CPlan._fields_})  # type: ignore[misc]


def codeword(
    payload: BytesLike,
    transmission: Transmission,
    n_ir: int = 0,
    *,
    bits: bool = False,
    out: Bytes | None = None,
) -> Bytes:
    """Return the codeword of a transmission: its G bits (36.212 5.1.5).

    Parameters
    ----------
    payload : array of uint8, or bytes
        The transport block: 1 to 18,722 bytes.
    transmission : Transmission
        Its numbers.
    n_ir : int
        N_IR, the soft values of the receiver's buffer for the transport block, or 0 for a full buffer.
    bits : bool
        Whether to return one bit per item, 0 or 1. Else eight in a byte, the highest first, with unused low bits 0.
    out : array of uint8, optional
        Where the bytes are written: contiguous, at least ceil(G / 8) items. Not with `bits`.

    Returns
    -------
    array of uint8
        Of ceil(G / 8) bytes, or of G bits. With `out`, the start of it.

    Raises
    ------
    Refused
        BAD_LENGTH, BAD_QM, BAD_NL, BAD_G, BAD_VERSION, BAD_BUFFER, SHORT_OUTPUT.

    Examples
    --------
    >>> codeword(b"\\0\\1", Transmission(qm=2, g=132, rv=0)).tobytes().hex()
    '3494861b120470c379901015042d498890'
    """
    data, told = bytes_of(payload, "payload"), known(transmission, Transmission).in_c()
    if bits and out is not None:
        raise TypeError("bits and out are not taken together")
    count = min(told.g, MOST_BITS)
    made = room(out, (count + 7) // 8, np.uint8, data)
    library.call(
        "codeword", library.at(data), data.size, told, buffer_size(n_ir), library.at(made), made.size
    )
    return unpack(made, count) if bits else made[: (count + 7) // 8]


def codewords(
    payload: BytesLike, transmissions: Sequence[Transmission], n_ir: int = 0, *, bits: bool = False
) -> list[Bytes]:
    """Return the codewords of several transmissions, encoding the transport block once (36.212 5.1.5).

    Parameters
    ----------
    payload, n_ir, bits
        As for `codeword`.
    transmissions : sequence of Transmission
        One to eight.

    Returns
    -------
    list of arrays of uint8
        What `codeword` returns for each.

    Raises
    ------
    Refused
        BAD_LENGTH, BAD_COUNT, BAD_QM, BAD_NL, BAD_G, BAD_VERSION, BAD_BUFFER.

    Examples
    --------
    >>> sent = [Transmission(qm=2, g=8, rv=rv) for rv in range(4)]
    >>> [it.tobytes().hex() for it in codewords(b"\\0\\1", sent)]
    ['34', '24', 'e6', '10']
    """
    data = bytes_of(payload, "payload")
    told = in_c(transmissions)
    counts = [min(it.g, MOST_BITS) for it in told]
    sizes = [(count + 7) // 8 for count in counts]
    out = np.zeros(sum(sizes), np.uint8)
    words = (library.at(data), data.size, told, len(told), buffer_size(n_ir), library.at(out), out.size)
    library.call("codewords", *words)
    made = np.split(out, np.cumsum(sizes[:-1], dtype=np.intp))
    return [unpack(it, count) for it, count in zip(made, counts)] if bits else made
