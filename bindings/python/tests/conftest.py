import numpy as np
import pytest

import gomzelat

#: A payload and its codeword in one transmission, worked by hand from the standard.
SENT = bytes.fromhex("0001")
CODEWORD = bytes.fromhex("3494861b120470c379901015042d498890")


@pytest.fixture
def good() -> gomzelat.Transmission:
    return gomzelat.Transmission(qm=2, g=132, rv=0)


def strong(bits: np.ndarray, amp: int = 127) -> np.ndarray:
    """Soft values without noise of bits, 0 or 1 each."""
    return np.where(np.asarray(bits) == 1, -amp, amp).astype(np.int8)


def refuses(answer: gomzelat.Answer, call, /, *arguments, **named) -> None:
    with pytest.raises(gomzelat.Refused) as caught:
        call(*arguments, **named)
    assert caught.value.number == answer
