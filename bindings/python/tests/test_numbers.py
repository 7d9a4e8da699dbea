"""Whole numbers and structures of each call: any number is taken or refused, and whatever else is a TypeError."""

import numpy as np
import pytest
from conftest import CODEWORD, SENT, strong

import gomzelat as gz

WHOLE = (
    lambda it: gz.plan(it),
    lambda it: gz.sizes(it),
    lambda it: gz.Harq(it),
    lambda it: gz.Harq(2, it).decode(),
    lambda it: gz.Harq(2, windows=it).decode(),
    lambda it: gz.Harq(2, limit=it).decode(),
    lambda it: gz.receive(it, [], []),
    lambda it: gz.receive(2, [], [], it),
    lambda it: gz.receive(2, [], [], windows=it),
    lambda it: gz.receive(2, [], [], limit=it),
    lambda it: gz.codeword(SENT, gz.Transmission(it, 132)),
    lambda it: gz.codeword(SENT, gz.Transmission(2, it)),
    lambda it: gz.codeword(SENT, gz.Transmission(2, 132, it)),
    lambda it: gz.codewords(SENT, [gz.Transmission(2, 132, 0, it)]),
    lambda it: gz.codeword(SENT, gz.Transmission(2, 132), it),
    lambda it: gz.code_block(SENT, it),
    lambda it: gz.streams(SENT, it),
    lambda it: gz.spots(2, it),
    lambda it: gz.spots(it, 0),
    lambda it: gz.piece(it, 0, gz.Transmission(2, 132)),
    lambda it: gz.piece(2, it, gz.Transmission(2, 132)),
    lambda it: gz.select(SENT, it, gz.Transmission(2, 132)),
    lambda it: gz.decode_block(it, []),
    lambda it: gz.decode_block(40, [0] * 132, it),
    lambda it: gz.decode_block(40, [0] * 132, 0, it),
    lambda it: gz.decode_block(40, [0] * 132, windows=it),
    lambda it: gz.decode_block(40, [0] * 132, limit=it),
    lambda it: gz.noisy(b"a", it, gz.Channel(1, 1, 1)),
    lambda it: gz.noisy(b"a", 8, gz.Channel(it, 1, 1)),
    lambda it: gz.noisy(b"a", 8, gz.Channel(1, it, 1)),
    lambda it: gz.noisy(b"a", 8, gz.Channel(1, 1, it)),
    lambda it: gz.noisy(b"a", 8, gz.Channel(1, 1, 1), it),
    lambda it: gz.noisy(b"a", 8, gz.Channel(1, 1, 1), 0, it),
    lambda it: gz.trial_payload(it, 1),
    lambda it: gz.trial_payload(8, it),
    lambda it: gz.trial_payload(8, 1, it),
    lambda it: gz.scrambling_init(gz.Scrambling(it)),
    lambda it: gz.scrambling_init(gz.Scrambling(0, cell=it)),
    lambda it: gz.scramble(b"a", gz.Scrambling(0), -1 if it is None else it),
    lambda it: gz.map_bits(b"a", it),
    lambda it: gz.map_bits(b"a", 2, -1 if it is None else it),
    lambda it: gz.demap_points([1j], it, 1),
    lambda it: gz.demap_points([1j], 2, it),
)


@pytest.mark.parametrize("call", WHOLE)
def test_what_is_no_whole_number(call):
    for bad in (2.0, "2", np.float32(2), np.array([2, 2]), 2j):
        with pytest.raises(TypeError):
            call(bad)
    with pytest.raises((TypeError, gz.Refused)):
        call(None)


@pytest.mark.parametrize("call", WHOLE)
def test_a_number_of_any_size_is_taken_or_refused(call):
    for it in (-(2**70), -1, 0, True, 2**31, 2**32, 2**63, 2**64, 2**70, np.uint64(2**64 - 1), np.int8(-1)):
        try:
            call(it)
        except gz.Refused as refused:
            assert refused.number in set(gz.Answer)


def test_numbers_of_numpy_are_taken():
    for kind in (np.uint8, np.int8, np.int64, np.uint64):
        sent = gz.Transmission(kind(2), kind(120), kind(0), kind(1))
        assert gz.codeword(SENT, sent).tobytes() == CODEWORD[:15]
        harq = gz.Harq(kind(2), kind(0), kind(8), kind(8))
        harq.add(sent, strong(gz.unpack(CODEWORD, 120)))
        assert harq.decode() and harq.payload.tobytes() == SENT
        assert gz.map_bits(bytes(300), kind(2)).size == 1200
        assert gz.demap_points([1j], kind(2), kind(100)).size == 2
        assert gz.noisy(SENT, kind(16), gz.Channel(kind(1), kind(1), kind(1)), kind(0), kind(7)).size == 16


def test_what_is_no_structure(good):
    for bad in ((2, 132, 0, 1), None, gz.Scrambling(0), {"qm": 2}):
        for call in (
            lambda: gz.codeword(SENT, bad),
            lambda: gz.codewords(SENT, [good, bad]),
            lambda: gz.receive(2, [bad], []),
            lambda: gz.Harq(2).add(bad, []),
            lambda: gz.piece(2, 0, bad),
            lambda: gz.select(SENT, 0, bad),
            lambda: gz.receive(2, good, []),
            lambda: gz.scrambling_init(good),
            lambda: gz.scramble(SENT, good),
            lambda: gz.descramble([0], good),
            lambda: gz.noisy(SENT, 16, good),
        ):
            with pytest.raises(TypeError):
                call()
