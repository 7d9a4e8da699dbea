"""The errors of calls."""

from __future__ import annotations

from enum import IntEnum


class Answer(IntEnum):
    """The return codes, as in gomzelat.h. OUT_OF_RANGE is this package's own: a number that doesn't fit the library's
    type, as a seed, or an item of a list."""

    OUT_OF_RANGE = -1
    DONE = 0
    NO_MEMORY = 1
    BAD_LENGTH = 2
    BAD_COUNT = 3
    BAD_QM = 4
    BAD_NL = 5
    BAD_G = 6
    BAD_VERSION = 7
    BAD_BUFFER = 8
    BAD_BLOCK = 9
    BAD_WINDOWS = 10
    BAD_LIMIT = 11
    BAD_SIZE = 12
    BAD_FILLERS = 13
    BAD_CHECK = 14
    BAD_VALUES = 15
    BAD_BITS = 16
    BAD_AMP = 17
    BAD_NOISE = 18
    BAD_NUMBER = 19
    BAD_SCRAMBLING = 20
    BAD_POINTS = 21
    SHORT_OUTPUT = 22
    SHORT_CELLS = 23
    SHORT_BLOCKS = 24
    SHORT_BITS = 25


_TEXTS = {
    Answer.OUT_OF_RANGE: "a seed is 0 to 2^64 - 1, and the number of a transport block 0 to 2^32 - 1",
    Answer.NO_MEMORY: "memory ran out",
    Answer.BAD_LENGTH: "a payload has 1 to 18722 bytes",
    Answer.BAD_COUNT: "there are 1 to 8 transmissions",
    Answer.BAD_QM: "Q_m is 2, 4 or 6",
    Answer.BAD_NL: "N_L is 1 or 2",
    Answer.BAD_G: "G is 1 to 1000000 and a multiple of N_L * Q_m",
    Answer.BAD_VERSION: "a redundancy version is 0 to 3",
    Answer.BAD_BUFFER: "N_IR is too small for the payload",
    Answer.BAD_BLOCK: "there is no code block of that number",
    Answer.BAD_WINDOWS: "the greatest number of windows is 1 to 64",
    Answer.BAD_LIMIT: "the greatest number of iterations is 1 to 16",
    Answer.BAD_SIZE: "K is one of the 188 sizes of a code block",
    Answer.BAD_FILLERS: "there are fewer fillers than bits",
    Answer.BAD_CHECK: "a check is CRC24A or CRC24B",
    Answer.BAD_VALUES: "there are as many soft values as bits",
    Answer.BAD_BITS: "there are fewer bytes than the bits need",
    Answer.BAD_AMP: "an amplitude is 1 to 127",
    Answer.BAD_NOISE: "noise is 0 to 127",
    Answer.BAD_NUMBER: "the number of a transmission is 0 to 7",
    Answer.BAD_SCRAMBLING: "a number of the scrambling is out of range",
    Answer.BAD_POINTS: "bits are a multiple of Q_m, coordinates from -4000 to 4000",
    Answer.SHORT_OUTPUT: "a buffer is too short for what is written",
    Answer.SHORT_CELLS: "there are fewer soft cells than the code blocks have",
    Answer.SHORT_BLOCKS: "there are fewer entries than code blocks",
    Answer.SHORT_BITS: "there are fewer bytes than the code blocks have bits",
}


class Refused(ValueError):
    """An argument that a call rejects.

    Parameters
    ----------
    number : int
        The return code, as in gomzelat.h and `Answer`.
    text : str, optional
        Its message; else that of gomzelat.h.

    Attributes
    ----------
    number : int
        The return code.

    Examples
    --------
    >>> import gomzelat
    >>> try:
    ...     gomzelat.plan(0)
    ... except gomzelat.Refused as refused:
    ...     print(refused.number, refused)
    2 a payload has 1 to 18722 bytes
    """

    def __init__(self, number: int, text: str | None = None) -> None:
        self.number = int(number)
        known = self.number in _TEXTS
        told = _TEXTS[Answer(self.number)] if known else f"the library answered {self.number}"
        super().__init__(text or told)

    def __reduce__(self) -> tuple[type[Refused], tuple[int, str]]:
        # What is raised in another process arrives whole.
        return Refused, (self.number, str(self))
