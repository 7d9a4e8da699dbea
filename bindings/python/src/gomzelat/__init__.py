"""The turbo coding chain of LTE transport blocks, 3GPP TS 36.212 5.1.1 to 5.1.5, with a receiver and a channel.

Calls of libgomzelat.so, which is proved. Bytes, bits and soft values are numpy arrays, or objects with the array
interface; contiguous inputs aren't copied. Bits are packed into bytes, highest first, or one per item where stated. A
soft value (LLR) is a number from -127 to 127, positive where 0 is likelier.

An argument out of range raises `Refused`, with the error code of the C library, and running out of memory
`MemoryError`. Calls release the GIL, so threads decode in parallel: don't change arguments during a call.
"""

from .arrays import pack, unpack
from .block import decode_block
from .channel import Channel, noisy, trial_payload
from .checks import crc24a, crc24b
from .harq import Harq
from .origin import origin
from .outcomes import Check, Decoded, Outcome
from .points import UNIT_POWER, demap_points, map_bits
from .receiver import receive, sizes
from .refused import Answer, Refused
from .scrambling import Scrambling, descramble, scramble, scrambling_init
from .sender import MOST_BITS, MOST_BYTES, codeword, codewords, plan
from .soft import quantise
from .stages import NULL, code_block, piece, select, spots, streams
from .values import Piece, Plan, Sizes, Transmission

__all__ = [
    "MOST_BITS",
    "MOST_BYTES",
    "NULL",
    "UNIT_POWER",
    "Answer",
    "Channel",
    "Check",
    "Decoded",
    "Harq",
    "Outcome",
    "Piece",
    "Plan",
    "Refused",
    "Scrambling",
    "Sizes",
    "Transmission",
    "code_block",
    "codeword",
    "codewords",
    "crc24a",
    "crc24b",
    "decode_block",
    "demap_points",
    "descramble",
    "map_bits",
    "noisy",
    "origin",
    "pack",
    "piece",
    "plan",
    "quantise",
    "receive",
    "scramble",
    "scrambling_init",
    "select",
    "sizes",
    "spots",
    "streams",
    "trial_payload",
    "unpack",
]
