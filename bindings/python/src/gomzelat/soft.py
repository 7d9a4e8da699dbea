"""Soft values from log-likelihood ratios.

=================================================  ========================================
Who                                                A positive soft value says
=================================================  ========================================
gomzelat                                           0 is likelier
most papers, IT++, AFF3CT: log P(0) / P(1)         0 is likelier
MATLAB's qamdemod with 'llr', and nrLDPCDecode     0 is likelier
MATLAB's comm.TurboDecoder                         1 is likelier: negate it
Sionna: log P(1) / P(0)                            1 is likelier: negate it
GNU Radio's constellation soft decoder             1 is likelier: negate it
=================================================  ========================================

Only GNU Radio's was tried here. To check another tool, send a bit 0 without noise, and look at its demapper's value. If
that is below 0, use a negative scale.

**Amplitude.** A soft value is an integer from -127 to 127, and the soft buffer of a transport block saturates at 127
after each addition, so values of repeated and retransmitted bits need headroom: a strong value of 20 to 40 suits one or
two transmissions, 10 to 20 suits eight. Much below 8 information is lost to rounding. Only the ratio to the noise
matters, since the decoder takes the greater of two sums and no logarithm.
"""

from __future__ import annotations

from typing import Any

import numpy as np
import numpy.typing as npt

from .arrays import Softs, numbers_of
from .refused import Answer, Refused


def quantise(llr: npt.ArrayLike, scale: float = 1.0, *, out: Softs | None = None) -> Softs:
    """Return soft values of log-likelihood ratios: times the scale, rounded to even, and clamped to -127 to 127.

    Parameters
    ----------
    llr : array of floats
        log P(0) / P(1) of each bit, of any shape and any type of real numbers: positive where 0 is likelier. For tools
        with the opposite sign give a negative scale.
    scale : float
        What a ratio of 1 becomes.
    out : array of int8, optional
        Where they are written: of the shape of `llr`, and of any layout.

    Returns
    -------
    array of int8
        Of the shape of `llr`.

    Raises
    ------
    Refused
        OUT_OF_RANGE: a ratio is NaN, or the scale isn't finite.

    Examples
    --------
    >>> quantise([0.2, -3.4, 100.0, float("inf")], scale=10).tolist()
    [2, -34, 127, 127]
    """
    if not np.isfinite(scale):
        raise Refused(Answer.OUT_OF_RANGE, "the scale is finite")
    given = numbers_of(llr, "biuf", "log-likelihood ratios", "real numbers")
    scaled: Any = np.asarray(given, np.float64) * scale
    if np.isnan(scaled).any():
        raise Refused(Answer.OUT_OF_RANGE, "a log-likelihood ratio is a number")
    made = np.clip(np.rint(scaled), -127, 127)
    if out is None:
        return np.asarray(made.astype(np.int8))
    if not isinstance(out, np.ndarray) or out.dtype != np.int8:
        raise TypeError("out is an array of int8")
    if out.shape != made.shape:
        raise ValueError(f"out is of the shape {made.shape}")
    np.copyto(out, made, casting="unsafe")
    return out
