"""What is measured: curves, and their points."""

from __future__ import annotations

import json
import math
from dataclasses import asdict, dataclass
from pathlib import Path
from typing import Any

from ..arrays import number, within
from ..refused import Answer, Refused
from ..values import Transmission


CHANNELS = ("awgn", "integer")


@dataclass(frozen=True)
class Curve:
    """A transport block's transmissions and its receiver: one curve of a picture.

    Attributes
    ----------
    name : str
        Its name in the picture.
    length, g, qm, versions, nl, n_ir : numbers
        The payload's bytes, G and Q_m of each transmission, the redundancy versions in the order in which they are
        sent, N_L, and N_IR, or 0 for a full buffer.
    windows, limit : int
        The receiver's most windows and iterations of a code block.

    Raises
    ------
    Refused
        BAD_COUNT: there are no versions. The other numbers are tested with the first block.

    Examples
    --------
    >>> curve = Curve("1/2", length=100, g=1600)
    >>> curve.efficiency, round(curve.shannon_limit(), 2)
    (1.0, 0.0)
    """

    name: str
    length: int
    g: int
    qm: int = 2
    versions: tuple[int, ...] = (0,)
    nl: int = 1
    n_ir: int = 0
    windows: int = 8
    limit: int = 8

    def __post_init__(self) -> None:
        object.__setattr__(self, "versions", tuple(map(int, self.versions)))
        if not self.versions:
            raise Refused(Answer.BAD_COUNT)

    @property
    def transmissions(self) -> list[Transmission]:
        """The transmissions, in order."""
        return [Transmission(self.qm, self.g, rv, self.nl) for rv in self.versions]

    @property
    def efficiency(self) -> float:
        """Payload bits for each symbol, where all versions are sent."""
        return 8 * self.length * self.qm / (self.g * len(self.versions))

    def shannon_limit(self) -> float:
        """Return the least E_s/N_0, in dB, at which so many bits go over a symbol: log2(1 + E_s/N_0) each."""
        return 10 * math.log10(2**self.efficiency - 1)


@dataclass(frozen=True)
class Point:
    """A curve at one E_s/N_0, in dB, over a channel.

    Attributes
    ----------
    channel : str
        'awgn': Gaussian noise of numpy; 'integer': this project's channel of whole numbers, with Q_m = 2.
    amp : int
        What a soft value of a bit without noise is: 1 to 127.
    seed : int
        What payloads and noise come from, with the number of each block: 0 to 2^64 - 1.

    Raises
    ------
    Refused
        BAD_AMP, OUT_OF_RANGE.
    ValueError
        There is no such channel, or E_s/N_0 isn't finite.
    """

    curve: Curve
    snr: float
    channel: str = "awgn"
    amp: int = 20
    seed: int = 1

    def __post_init__(self) -> None:
        if self.channel not in CHANNELS:
            raise ValueError(f"a channel is one of {', '.join(CHANNELS)}")
        if not math.isfinite(self.snr):
            raise ValueError("E_s/N_0 is finite")
        if not 1 <= number(self.amp) <= 127:
            raise Refused(Answer.BAD_AMP)
        within(self.seed, 64)


#: Code rates 1/3, 1/2 and 3/4 of one transmission of 100 bytes, with one and with two sent.
DEFAULT = [
    Curve(f"{rate}, {len(versions)} sent", 100, g, 2, versions)
    for rate, g in (("1/3", 2400), ("1/2", 1600), ("3/4", 1066))
    for versions in ((0,), (0, 2))
]


def load(file: str | Path) -> list[Curve]:
    """Read curves from a JSON file: a list of objects with the fields of `Curve`."""
    with open(file, encoding="utf-8") as told:
        rows: list[dict[str, Any]] = json.load(told)
    return [Curve(**{**it, "versions": tuple(it["versions"])} if "versions" in it else it) for it in rows]


def dump(curves: list[Curve], file: str | Path) -> None:
    """Write curves to a JSON file that `load` reads."""
    with open(file, "w", encoding="utf-8") as out:
        json.dump([asdict(it) for it in curves], out, indent=1)
        out.write("\n")
