"""The channel and the payloads of a trial: integers from a seed, the same on every machine.

Calls release the GIL: no other thread may change the arguments before a call returns.
"""

from __future__ import annotations

from dataclasses import dataclass

import numpy as np

from . import library
from .arrays import Bytes, BytesLike, Softs, bytes_of, room, within
from .arrays import number as in_c
from .sender import MOST_BYTES
from .values import known


@dataclass(frozen=True)
class Channel:
    """An integer channel, which is the same on every machine.

    Attributes
    ----------
    amp : int
        The soft value of a bit 0, 1 to 127; that of a bit 1 is its negative.
    noise : int
        The approximate standard deviation of the noise: 0 to 127.
    seed : int
        The seed of the noise: 0 to 2^64 - 1.

    Examples
    --------
    >>> Channel(amp=40, noise=10, seed=1)
    Channel(amp=40, noise=10, seed=1)
    """

    amp: int
    noise: int
    seed: int


def noisy(
    bits: BytesLike,
    count: int,
    channel: Channel,
    block: int = 0,
    number: int = 0,
    *,
    out: Softs | None = None,
) -> Softs:
    """Return soft values of sent bits, with noise from a seed, as the program's `channel` and `trial` make them.

    Parameters
    ----------
    bits : array of uint8, or bytes
        The bits that are sent, eight in a byte, the highest first.
    count : int
        How many of them.
    channel : Channel
        The amplitude, 1 to 127, the noise, 0 to 127, and the seed, 0 to 2^64 - 1.
    block : int
        The transport block's number, from 0 to 2^32 - 1.
    number : int
        The number of the transmission in its block: 0 to 7.
    out : array of int8, optional
        Where they are written: contiguous, at least `count` items.

    Returns
    -------
    array of int8
        A soft value for each bit: the amplitude, or its negative for a bit 1, and a term of noise, clamped to -127
        to 127. With `out`, the start of it.

    Raises
    ------
    Refused
        BAD_BITS, BAD_AMP, BAD_NOISE, BAD_NUMBER, SHORT_OUTPUT, OUT_OF_RANGE.

    Examples
    --------
    >>> noisy(bytes(1), 8, Channel(amp=40, noise=20, seed=5)).tolist()
    [16, 62, 52, 20, 50, 53, 27, 67]
    """
    data = bytes_of(bits, "bits")
    given = known(channel, Channel)
    told = library.CChannel(within(given.seed, 64), in_c(given.amp), in_c(given.noise))
    place, size = within(block, 32), in_c(count, 64)
    # More bits than there are are refused, with no need of room.
    made = room(out, min(size, 8 * data.size), np.int8, data)
    words = (library.at(data), data.size, size, told, place, in_c(number), library.at(made), made.size)
    library.call("noisy", *words)
    return made[:size]


def trial_payload(length: int, seed: int, block: int = 0) -> Bytes:
    """Return the payload of a block from a seed, as the program's `trial` makes it.

    Parameters
    ----------
    length : int
        Its bytes: 1 to 18,722.
    seed : int
        0 to 2^64 - 1.
    block : int
        The transport block's number, from 0 to 2^32 - 1.

    Returns
    -------
    array of uint8
        Its bytes.

    Raises
    ------
    Refused
        BAD_LENGTH, OUT_OF_RANGE.

    Examples
    --------
    >>> trial_payload(8, seed=1).tobytes().hex()
    'a5555a9341037952'
    """
    # One byte too many is refused as any greater length is.
    out = np.zeros(min(in_c(length, 64), MOST_BYTES + 1), np.uint8)
    library.call("trial_payload", within(seed, 64), within(block, 32), library.at(out), out.size)
    return out
