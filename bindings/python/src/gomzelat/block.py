"""Decoding of one code block.

Calls release the GIL: no other thread may change the arguments before a call returns.
"""

from __future__ import annotations

import numpy as np

from . import library
from .arrays import SoftsLike, number, softs_of
from .outcomes import Check, Decoded

_MOST_SIZE = 6144


def decode_block(
    k: int, values: SoftsLike, fill: int = 0, check: int = Check.CRC24A, windows: int = 8, limit: int = 8
) -> Decoded:
    """Decode one code block from the soft values of its coded streams.

    Parameters
    ----------
    k : int
        K, its bits: one of the 188 sizes (36.212 5.1.3.2.3).
    values : array of int8
        3 * (K + 4) soft values, those of d0, of d1 and of d2, of any shape: positive where 0 is likelier. Those at the
        fillers of d0 and d1 aren't used.
    fill : int
        How many of its bits are fillers, which come first: 0 to K - 1.
    check : Check
        The check that it ends with (36.212 5.1.1).
    windows, limit : int
        As for `receive`.

    Returns
    -------
    Decoded
        Its bits, whether its check holds, and the iterations.

    Raises
    ------
    Refused
        BAD_SIZE, BAD_FILLERS, BAD_CHECK, BAD_WINDOWS, BAD_LIMIT, BAD_VALUES.

    Examples
    --------
    >>> from gomzelat import streams
    >>> told = decode_block(40, np.where(streams(b"\\0\\1", 0) == 1, -40, 40).astype(np.int8))
    >>> np.packbits(told.bits).tobytes().hex(), told.passed
    ('0001864cfb', True)
    """
    softs = softs_of(values)
    told = library.CCode(number(k, 64), number(fill, 64), number(check))
    # A greater size is refused, with no need of room.
    bits = np.zeros(min(told.k, _MOST_SIZE), np.uint8)
    result = np.zeros(1, library.result_type())
    words = (library.at(softs), softs.size, library.at(bits), bits.size, library.at(result))
    library.call("decode_block", told, number(windows), number(limit), *words)
    return Decoded(bits, bool(result["passed"][0]), int(result["iterations"][0]))
