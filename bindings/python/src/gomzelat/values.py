"""The types of the sender's arguments and results."""

from __future__ import annotations

import ctypes
from collections.abc import Sequence
from dataclasses import dataclass
from typing import Any, TypeVar

from . import library
from .arrays import number

_Kind = TypeVar("_Kind")


def known(value: Any, kind: type[_Kind]) -> _Kind:
    """Returns an argument that is a structure, if it is one."""
    if not isinstance(value, kind):
        raise TypeError(f"a {kind.__name__} is wanted, and {value!r} is a {type(value).__name__}")
    return value


def in_c(transmissions: Sequence[Transmission]) -> ctypes.Array[Any]:
    """Returns transmissions as C takes them."""
    told = [known(it, Transmission).in_c() for it in transmissions]
    return (library.CTransmission * len(told))(*told)


@dataclass(frozen=True)
class Transmission:
    """One transmission of a transport block (36.212 5.1.4.1.2).

    Attributes
    ----------
    qm : int
        Q_m, the bits of a modulation symbol: 2, 4 or 6.
    g : int
        G, its bits: 1 to 1,000,000, and a multiple of N_L * Q_m.
    rv : int
        Its redundancy version: 0 to 3.
    nl : int
        N_L, its layers: 1 or 2.

    Examples
    --------
    >>> Transmission(qm=2, g=528, rv=0)
    Transmission(qm=2, g=528, rv=0, nl=1)
    """

    qm: int
    g: int
    rv: int = 0
    nl: int = 1

    def in_c(self) -> ctypes.Structure:
        return library.CTransmission(number(self.qm), number(self.nl), number(self.g), number(self.rv))


@dataclass(frozen=True)
class Plan:
    """How a transport block is cut into code blocks (36.212 5.1.2).

    The code blocks of `k_minus` bits come before those of `k_plus`.

    Attributes
    ----------
    c : int
        C, the code blocks: 1 to 25.
    k_plus, k_minus : int
        K+ and K-, the bits of a code block of either size; K- is 0 where all have K+.
    c_plus, c_minus : int
        C+ and C-, how many there are of either size.
    f : int
        F, the fillers, which come first in the first code block.

    Examples
    --------
    >>> import gomzelat
    >>> gomzelat.plan(766)
    Plan(c=2, k_plus=3136, k_minus=3072, c_plus=1, c_minus=1, f=8)
    """

    c: int
    k_plus: int
    k_minus: int
    c_plus: int
    c_minus: int
    f: int

    def size(self, r: int) -> int:
        """Return K of code block `r`, counted from 0.

        Parameters
        ----------
        r : int
            The code block, which isn't checked.

        Returns
        -------
        int
            K- or K+, bits.

        Examples
        --------
        >>> Plan(c=3, k_plus=64, k_minus=56, c_plus=2, c_minus=1, f=0).size(0)
        56
        """
        return self.k_minus if r < self.c_minus else self.k_plus


@dataclass(frozen=True)
class Piece:
    """The part of its circular buffer that a code block sends (36.212 5.1.4.1.2).

    Attributes
    ----------
    k, fill : int
        Its bits, and how many of them are fillers.
    buffer : int
        K_w, the places of its circular buffer.
    places : int
        N_cb, those of them from which it sends.
    start : int
        k0, the place that is sent first, which is below N_cb or is taken modulo N_cb.
    bits : int
        E, the bits that are sent.

    Examples
    --------
    >>> import gomzelat
    >>> gomzelat.piece(2, 0, Transmission(qm=2, g=132, rv=2))
    Piece(k=40, fill=0, buffer=192, places=192, start=100, bits=132)
    """

    k: int
    fill: int
    buffer: int
    places: int
    start: int
    bits: int


@dataclass(frozen=True)
class Sizes:
    """The array sizes of a transport block's `Harq`.

    Attributes
    ----------
    cells : int
        Its soft cells, 3 * (K + 4) for each code block.
    blocks : int
        C, its code blocks.
    bits : int
        The bits of all code blocks.

    Examples
    --------
    >>> import gomzelat
    >>> gomzelat.sizes(2)
    Sizes(cells=132, blocks=1, bits=40)
    """

    cells: int
    blocks: int
    bits: int
