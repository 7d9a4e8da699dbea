"""HARQ combining: reception one transmission at a time.

Calls release the GIL: no other thread may change the arguments before a call returns.
"""

from __future__ import annotations

import ctypes
from typing import Any

import numpy as np
import numpy.typing as npt

from . import library
from .arrays import Bits, Bytes, Softs, SoftsLike, buffer_size, number, softs_of
from .receiver import sizes, told_in_c
from .sender import plan
from .values import Transmission, known


class Harq:
    """The reception of one transport block, transmission after transmission.

    `add` and `decode` after each transmission, until `decode` returns True, have the outcome of `receive` with all
    these transmissions. All state between calls is in the arrays below, which may be read, saved, copied and changed;
    an object can be copied and pickled.

    Parameters
    ----------
    length, n_ir, windows, limit
        As for `receive`. Only the length is checked here; the others by the first call that uses them.

    Attributes
    ----------
    cells : array of int8
        The soft cells, for each code block those of d0, of d1 and of d2, each K + 4.
    bits : array of uint8
        The last decided bits of the code blocks, each 0 or 1, one code block after the other, also of those that
        failed.
    payload : array of uint8
        The bytes that these bits carry, whether or not the checks hold.
    delivered : bool
        Whether the checks of all code blocks and of the transport block held at the last `decode`.
    transmissions : int
        How many were added.
    passed : array of bool
        Whether the check of each code block held at the last `decode`.
    iterations : array of uint64
        The iterations that the last decoding of each code block took.

    Raises
    ------
    Refused
        BAD_LENGTH.

    Examples
    --------
    >>> from gomzelat import codeword
    >>> first, second = Transmission(qm=2, g=60, rv=0), Transmission(qm=2, g=60, rv=2)
    >>> harq = Harq(2)
    >>> for sent in (first, second):
    ...     bits = codeword(b"\\0\\1", sent, bits=True)
    ...     harq.add(sent, np.where(bits == 0, 20, -20).astype(np.int8))
    ...     if harq.decode():
    ...         break
    >>> harq.delivered, harq.payload.tolist(), harq.passed.tolist()
    (True, [0, 1], [True])
    """

    def __init__(self, length: int, n_ir: int = 0, windows: int = 8, limit: int = 8) -> None:
        kept = sizes(length)
        self.length, self.n_ir, self.windows, self.limit = number(length, 64), n_ir, windows, limit
        self.delivered = False
        self.transmissions = 0
        self._cells: Softs = np.zeros(kept.cells, np.int8)
        self._bits: Bits = np.zeros(kept.bits, np.uint8)
        self._payload: Bytes = np.zeros(self.length, np.uint8)
        self._blocks: npt.NDArray[Any] = np.zeros(kept.blocks, library.result_type())

    @property
    def cells(self) -> Softs:
        """The soft cells."""
        return self._cells

    @property
    def bits(self) -> Bits:
        """The decided bits of all code blocks."""
        return self._bits

    @property
    def payload(self) -> Bytes:
        """The bytes that the decided bits carry."""
        return self._payload

    def add(self, transmission: Transmission, values: SoftsLike) -> None:
        """Add the soft values of one transmission to the cells, each sum clamped to -127 to 127.

        Parameters
        ----------
        transmission : Transmission
            Its numbers.
        values : array of int8
            A soft value for each of its G bits.

        Raises
        ------
        Refused
            BAD_QM, BAD_NL, BAD_G, BAD_VERSION, BAD_BUFFER, BAD_VALUES. The cells are unchanged.

        Examples
        --------
        >>> harq = Harq(2)
        >>> harq.add(Transmission(qm=2, g=4, rv=0), [40, 40, 40, 40])
        >>> harq.transmissions, harq.cells[harq.cells != 0].tolist()
        (1, [40, 40, 40, 40])
        """
        softs, told = softs_of(values), known(transmission, Transmission).in_c()
        library.call(
            "combine",
            *(self.length, told, buffer_size(self.n_ir), library.at(softs), softs.size),
            *(library.at(self._cells), self._cells.size),
        )
        self.transmissions += 1

    def decode(self) -> bool:
        """Decode the code blocks that haven't passed, and return whether the transport block is delivered.

        Returns
        -------
        bool
            `delivered`.

        Raises
        ------
        Refused
            BAD_BUFFER, BAD_WINDOWS, BAD_LIMIT. All arrays are unchanged.

        Examples
        --------
        >>> harq = Harq(2)
        >>> harq.add(Transmission(qm=2, g=132, rv=0), [-9] * 132)
        >>> harq.decode(), harq.iterations.tolist()
        (False, [8])
        """
        delivered = ctypes.c_uint32()
        library.call(
            "decode",
            *(
                self.length,
                told_in_c(self.n_ir, self.windows, self.limit),
                library.at(self._cells),
                self._cells.size,
            ),
            *(library.at(self._blocks), self._blocks.size, library.at(self._bits), self._bits.size),
            *(library.at(self._payload), self._payload.size, ctypes.byref(delivered)),
        )
        self.delivered = bool(delivered.value)
        return self.delivered

    @property
    def passed(self) -> npt.NDArray[np.bool_]:
        """Whether the check of each code block held at the last `decode`."""
        return np.asarray(self._blocks["passed"] != 0)

    @property
    def iterations(self) -> npt.NDArray[np.uint64]:
        """The iterations that the last decoding of each code block took."""
        return np.asarray(self._blocks["iterations"])

    def code_blocks(self) -> list[Bits]:
        """Return the decided bits of each code block, as views of `bits`.

        Returns
        -------
        list of arrays of uint8
            K items each, 0 or 1.

        Examples
        --------
        >>> [it.size for it in Harq(766).code_blocks()]
        [3072, 3136]
        """
        cut = plan(self.length)
        return np.split(self._bits, np.cumsum([cut.size(r) for r in range(cut.c - 1)], dtype=np.intp))
