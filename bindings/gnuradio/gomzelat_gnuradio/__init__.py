"""Blocks for GNU Radio: an encoder and a decoder of LTE transport blocks (3GPP TS 36.212 5.1.1 to 5.1.5)."""

from .decoder import Decoder
from .encoder import Encoder

__all__ = ["Decoder", "Encoder"]
