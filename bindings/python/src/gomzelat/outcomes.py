"""The results of receptions."""

from __future__ import annotations

from dataclasses import dataclass
from enum import IntEnum

from .arrays import Bits, Bytes


@dataclass(frozen=True, eq=False)
class Outcome:
    """The outcome of a transport block's transmissions.

    Attributes
    ----------
    payload : array of uint8, or None
        Its bytes, or None where it wasn't delivered.
    transmissions : int
        Those up to the first after which all checks held, else all.
    iterations : int
        Those of all code blocks, of each one's last decoding.

    Examples
    --------
    >>> Outcome(None, transmissions=2, iterations=16).delivered
    False
    """

    payload: Bytes | None
    transmissions: int
    iterations: int

    @property
    def delivered(self) -> bool:
        """Whether all checks held."""
        return self.payload is not None


class Check(IntEnum):
    """The check that a code block ends with (36.212 5.1.1): CRC24B where a transport block has several.

    Examples
    --------
    >>> Check.CRC24B.value
    1
    """

    CRC24A = 0
    CRC24B = 1


@dataclass(frozen=True, eq=False)
class Decoded:
    """The result of decoding one code block.

    Attributes
    ----------
    bits : array of uint8
        Its K bits, 0 or 1 in an item, fillers 0, whether or not the check holds.
    passed : bool
        Whether its check holds.
    iterations : int
        Those that it took.

    Examples
    --------
    >>> import gomzelat
    >>> gomzelat.decode_block(40, [1] * 132).bits.sum()
    0
    """

    bits: Bits
    passed: bool
    iterations: int
