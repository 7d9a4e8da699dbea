"""What each call refuses, by its number: also numbers that C has no place for."""

import copy
import pickle

import numpy as np
import pytest
from conftest import SENT, refuses

import gomzelat as gz
from gomzelat import Answer, Transmission

HUGE = 2**70
# Transmissions with one bad number, and what is refused.
BAD = [
    (Transmission(3, 132, 0), Answer.BAD_QM),
    (Transmission(258, 132, 0, 9), Answer.BAD_QM),
    (Transmission(2**32 + 2, 132, 0), Answer.BAD_QM),
    (Transmission(-2, 132, 0), Answer.BAD_QM),
    (Transmission(2, 132, 0, 0), Answer.BAD_NL),
    (Transmission(2, 0, 0, HUGE), Answer.BAD_NL),
    (Transmission(2, 0, 0), Answer.BAD_G),
    (Transmission(2, 133, 0), Answer.BAD_G),
    (Transmission(2, HUGE, 9), Answer.BAD_G),
    (Transmission(2, 132, 4), Answer.BAD_VERSION),
    (Transmission(2, 132, -1), Answer.BAD_VERSION),
]
GOOD = Transmission(2, 132, 0)
CHANNEL = gz.Channel(amp=40, noise=20, seed=5)
ZEROS = np.zeros(132, np.int8)
OF_SENDING = [
    lambda payload, sent, n_ir: gz.codeword(payload, sent, n_ir),
    lambda payload, sent, n_ir: gz.codewords(payload, [GOOD, sent], n_ir),
    lambda payload, sent, n_ir: gz.piece(len(payload), 0, sent, n_ir),
    lambda payload, sent, n_ir: gz.select(payload, 0, sent, n_ir),
    lambda payload, sent, n_ir: gz.receive(len(payload), [GOOD, sent], [], n_ir),
]


@pytest.mark.parametrize("call", OF_SENDING)
def test_of_a_transmission(call):
    refuses(Answer.BAD_LENGTH, call, b"", GOOD, 0)
    refuses(Answer.BAD_LENGTH, call, bytes(18723), GOOD, 0)
    for transmission, answer in BAD:
        # A buffer that is too small is told only after these.
        refuses(answer, call, SENT, transmission, 1)
    for n_ir in (1, 63, -1, -HUGE):
        refuses(Answer.BAD_BUFFER, call, SENT, GOOD, n_ir)


def test_of_combining():
    for transmission, answer in BAD:
        refuses(answer, gz.Harq(2, n_ir=1).add, transmission, [])
    for n_ir in (63, -1):
        refuses(Answer.BAD_BUFFER, gz.Harq(2, n_ir).add, GOOD, ZEROS)
        refuses(Answer.BAD_BUFFER, gz.Harq(2, n_ir).decode)
    refuses(Answer.BAD_VALUES, gz.Harq(2).add, GOOD, ZEROS[1:])


@pytest.mark.parametrize("length", [0, -1, 18723, HUGE])
def test_of_a_length(length):
    for call in (gz.plan, gz.sizes, gz.Harq, lambda it: gz.trial_payload(it, 1), lambda it: gz.spots(it, 0)):
        refuses(Answer.BAD_LENGTH, call, length)
    refuses(Answer.BAD_LENGTH, gz.receive, length, [], [])


@pytest.mark.parametrize("r", [1, -1, HUGE])
def test_of_a_code_block(r):
    for call in (gz.code_block, gz.streams):
        refuses(Answer.BAD_BLOCK, call, SENT, r)
    refuses(Answer.BAD_BLOCK, gz.spots, 2, r)
    refuses(Answer.BAD_BLOCK, gz.piece, 2, r, GOOD)
    refuses(Answer.BAD_BLOCK, gz.select, SENT, r, GOOD)


def test_of_a_reception():
    refuses(Answer.BAD_COUNT, gz.receive, 2, [], [])
    refuses(Answer.BAD_COUNT, gz.receive, 2, [GOOD] * 9, np.zeros(9 * 132, np.int8))
    refuses(Answer.BAD_COUNT, gz.codewords, SENT, [])
    refuses(Answer.BAD_COUNT, gz.codewords, SENT, [GOOD] * 9)
    for name, answer in (("windows", Answer.BAD_WINDOWS), ("limit", Answer.BAD_LIMIT)):
        for bad in (0, -1, 65, HUGE):
            refuses(answer, gz.receive, 2, [GOOD], ZEROS, **{name: bad})
            refuses(answer, gz.Harq(2, **{name: bad}).decode)
            refuses(answer, gz.decode_block, 40, ZEROS, **{name: bad})
    refuses(Answer.BAD_VALUES, gz.receive, 2, [GOOD], ZEROS[1:])


def test_of_a_code_block_by_itself():
    for k in (0, 41, 6145, HUGE):
        refuses(Answer.BAD_SIZE, gz.decode_block, k, ZEROS)
    for fill in (40, -1, HUGE):
        refuses(Answer.BAD_FILLERS, gz.decode_block, 40, ZEROS, fill)
    for check in (2, -1, HUGE):
        refuses(Answer.BAD_CHECK, gz.decode_block, 40, ZEROS, 0, check)
    refuses(Answer.BAD_VALUES, gz.decode_block, 40, ZEROS[1:])


def test_of_a_channel():
    refuses(Answer.BAD_BITS, gz.noisy, bytes(2), 17, CHANNEL)
    refuses(Answer.BAD_BITS, gz.noisy, b"", HUGE, CHANNEL)
    for amp in (0, 128, -1, HUGE):
        refuses(Answer.BAD_AMP, gz.noisy, b"\0", 8, gz.Channel(amp, 200, 1))
    for noise in (128, -1, HUGE):
        refuses(Answer.BAD_NOISE, gz.noisy, b"\0", 8, gz.Channel(1, noise, 1), number=9)
    for number in (8, -1, HUGE):
        refuses(Answer.BAD_NUMBER, gz.noisy, b"\0", 8, CHANNEL, number=number)
    for bad in (-1, 2**64):
        refuses(Answer.OUT_OF_RANGE, gz.noisy, b"\0", 8, gz.Channel(1, 1, bad))
        refuses(Answer.OUT_OF_RANGE, gz.trial_payload, 8, bad)
    for bad in (-1, 2**32):
        refuses(Answer.OUT_OF_RANGE, gz.noisy, b"\0", 8, CHANNEL, block=bad)
        refuses(Answer.OUT_OF_RANGE, gz.trial_payload, 8, 1, bad)


def test_of_scrambling():
    for bad in (
        {"rnti": 65536},
        {"rnti": -1},
        {"rnti": 0, "q": 2},
        {"rnti": 0, "slot": 20},
        {"rnti": 0, "cell": 504},
    ):
        told = gz.Scrambling(**bad)
        refuses(Answer.BAD_SCRAMBLING, gz.scrambling_init, told)
        refuses(Answer.BAD_SCRAMBLING, gz.scramble, b"\0", told)
        refuses(Answer.BAD_SCRAMBLING, gz.descramble, [0], told)
    refuses(Answer.BAD_BITS, gz.scramble, b"\0", gz.Scrambling(0), 9)
    refuses(Answer.BAD_BITS, gz.scramble, b"\0", gz.Scrambling(0), -1)


def test_of_points():
    for qm in (0, 3, -2, HUGE):
        refuses(Answer.BAD_QM, gz.map_bits, bytes(3), qm)
        refuses(Answer.BAD_QM, gz.demap_points, [0j], qm, 40)
    refuses(Answer.BAD_BITS, gz.map_bits, bytes(3), 2, 26)
    refuses(Answer.BAD_BITS, gz.map_bits, bytes(3), 2, HUGE)
    refuses(Answer.BAD_POINTS, gz.map_bits, bytes(3), 4, 6)
    for amp in (0, 128, -1):
        refuses(Answer.BAD_AMP, gz.demap_points, [0j], 2, amp)
    for point in (4001, -4001j, 1e30, float("nan"), float("inf"), complex(0, float("nan"))):
        refuses(Answer.BAD_POINTS, gz.demap_points, [point], 2, 40)


def test_short_outputs():
    refuses(Answer.SHORT_OUTPUT, gz.codeword, SENT, GOOD, out=np.zeros(16, np.uint8))
    refuses(Answer.SHORT_OUTPUT, gz.noisy, b"\0", 8, CHANNEL, out=np.zeros(7, np.int8))
    refuses(Answer.SHORT_OUTPUT, gz.demap_points, [0j], 2, 40, out=np.zeros(1, np.int8))


def test_a_refusal_survives_pickling_and_has_its_text():
    for answer in set(Answer) - {Answer.DONE}:
        refused = gz.Refused(answer)
        for other in (pickle.loads(pickle.dumps(refused)), copy.deepcopy(refused)):
            assert (other.number, str(other)) == (answer, str(refused))
    assert len({str(gz.Refused(it)) for it in Answer if it != Answer.DONE}) == len(Answer) - 1
    assert "99" in str(gz.Refused(99))
