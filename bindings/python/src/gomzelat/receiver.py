"""Reception of all transmissions in one call.

Calls release the GIL: no other thread may change the arguments before a call returns.
"""

from __future__ import annotations

import ctypes
from collections.abc import Sequence

import numpy as np

from . import library
from .arrays import SoftsLike, buffer_size, number, softs_of
from .outcomes import Outcome
from .sender import MOST_BYTES
from .values import Sizes, Transmission, in_c


def told_in_c(n_ir: int, windows: int, limit: int) -> ctypes.Structure:
    """Returns how a receiver decodes, as C takes it."""
    return library.CReceiver(buffer_size(n_ir), number(windows), number(limit))


def receive(
    length: int,
    transmissions: Sequence[Transmission],
    values: SoftsLike,
    n_ir: int = 0,
    windows: int = 8,
    limit: int = 8,
) -> Outcome:
    """Return the outcome of the transmissions of a transport block (36.212 5.1.5), received.

    After each transmission, in order, the code blocks that haven't passed are decoded; it ends with the first after
    which all checks hold. The transmissions share one soft buffer, which saturates at -127 and 127.

    Parameters
    ----------
    length : int
        The transport block's bytes: 1 to 18,722.
    transmissions : sequence of Transmission
        One to eight.
    values : array of int8
        The G soft values of each, one transmission after the other, positive where 0 is likelier; -128 is taken
        as -127.
    n_ir : int
        N_IR, as for `codeword`.
    windows : int
        The most windows of a code block: 1 to 64; 8, 16 and 32 run in lock step, which is fastest.
    limit : int
        The most iterations of a code block: 1 to 16.

    Returns
    -------
    Outcome
        The payload, an array of uint8, or None; how many transmissions were decoded; and the iterations.

    Raises
    ------
    Refused
        BAD_LENGTH, BAD_COUNT, BAD_QM, BAD_NL, BAD_G, BAD_VERSION, BAD_BUFFER, BAD_WINDOWS, BAD_LIMIT, BAD_VALUES.

    Examples
    --------
    >>> from gomzelat import unpack
    >>> sent = Transmission(qm=2, g=132, rv=0)
    >>> bits = unpack(bytes.fromhex("3494861b120470c379901015042d498890"), 132)
    >>> outcome = receive(2, [sent], np.where(bits == 0, 40, -40).astype(np.int8))
    >>> outcome.payload.tolist(), outcome.transmissions, outcome.iterations
    ([0, 1], 1, 1)
    """
    softs = softs_of(values)
    sent = in_c(transmissions)
    size = number(length, 64)
    # A greater length is refused, with no need of room.
    payload = np.zeros(min(size, MOST_BYTES), np.uint8)
    told = library.COutcome()
    library.call(
        "receive",
        *(size, sent, len(sent), told_in_c(n_ir, windows, limit), library.at(softs), softs.size),
        *(library.at(payload), payload.size, ctypes.byref(told)),
    )
    return Outcome(payload if told.delivered else None, told.transmissions, told.iterations)


def sizes(length: int) -> Sizes:
    """Return the array sizes of a transport block's `Harq`.

    Parameters
    ----------
    length : int
        Its bytes: 1 to 18,722.

    Returns
    -------
    Sizes
        Soft cells, code blocks, and bits of code blocks.

    Raises
    ------
    Refused
        BAD_LENGTH.

    Examples
    --------
    >>> sizes(2)
    Sizes(cells=132, blocks=1, bits=40)
    """
    out = library.CSizes()
    library.call("sizes", number(length, 64), ctypes.byref(out))
    return Sizes(out.cells, out.blocks, out.bits)
