"""Transport blocks by number: each has the same result wherever it is run."""

from __future__ import annotations

import math
from typing import Any

import numpy as np
import numpy.typing as npt

from ..arrays import Bytes, Softs, unpack
from ..channel import Channel, noisy, trial_payload
from ..harq import Harq
from ..points import UNIT_POWER, demap_points, map_bits
from ..sender import codeword
from ..soft import quantise
from .curves import Point

#: What a block came to.
RECORD = np.dtype(
    [("error", "?"), ("undetected", "?"), ("bit_errors", "u4"), ("transmissions", "u1"), ("iterations", "u4")]
)


def noise_of(point: Point) -> int:
    """Return the noise of the integer channel that is nearest to a point's E_s/N_0."""
    return int(min(127, round(point.amp / 10 ** (point.snr / 20))))


def _over_integers(coded: Bytes, point: Point, block: int, number: int) -> Softs:
    if point.curve.qm != 2:
        raise ValueError("the channel of whole numbers sends each bit by itself: Q_m is 2")
    told = Channel(point.amp, noise_of(point), point.seed)
    return noisy(coded, point.curve.g, told, block, number)


def _over_awgn(coded: Bytes, point: Point, random: np.random.Generator) -> Softs:
    """Returns soft values of points with noise: a point's mean power is E_s, and N_0 / 2 the variance in each of its
    coordinates."""
    curve, amp = point.curve, point.amp
    deviation = amp / UNIT_POWER[curve.qm] / math.sqrt(2) / 10 ** (point.snr / 20)
    noise = deviation * random.standard_normal(2 * (curve.g // curve.qm))
    if curve.qm == 2:
        # Each coordinate is a bit by itself.
        return quantise(amp * (1.0 - 2.0 * unpack(coded, curve.g)) + noise)
    return demap_points(amp * map_bits(coded, curve.qm, curve.g) + noise.view(np.complex128), curve.qm, amp)


def _received(point: Point, coded: Bytes, block: int, number: int, random: np.random.Generator) -> Softs:
    if point.channel == "integer":
        return _over_integers(coded, point, block, number)
    return _over_awgn(coded, point, random)


def run_block(point: Point, block: int) -> tuple[bool, bool, int, int, int]:
    """Return the result of the block of a number: whether it isn't delivered as sent, whether it is delivered as
    something else, its wrong bits, transmissions and iterations."""
    curve = point.curve
    payload = trial_payload(curve.length, point.seed, block)
    random = np.random.Generator(np.random.Philox(np.random.SeedSequence(point.seed, spawn_key=(block,))))
    harq = Harq(curve.length, curve.n_ir, curve.windows, curve.limit)
    for number, transmission in enumerate(curve.transmissions):
        coded = codeword(payload, transmission, curve.n_ir)
        harq.add(transmission, _received(point, coded, block, number, random))
        if harq.decode():
            break
    wrong = int(np.unpackbits(payload ^ harq.payload).sum())
    undetected = harq.delivered and wrong > 0
    return not harq.delivered or undetected, undetected, wrong, harq.transmissions, int(harq.iterations.sum())


def run_blocks(point: Point, first: int, count: int) -> npt.NDArray[Any]:
    """Return a record for each of `count` blocks from `first` on. The same block at another point of a seed has the
    same payload, and the same noise up to its strength.

    Examples
    --------
    >>> from gomzelat.campaign import Curve, Point
    >>> run_blocks(Point(Curve("1/3", 100, 2400), snr=9.0), 0, 3)["error"].tolist()
    [False, False, False]
    """
    return np.array([run_block(point, block) for block in range(first, first + count)], RECORD)
