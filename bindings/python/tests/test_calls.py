"""The calls against worked values and independent computations."""

import threading
import time

import numpy as np
import pytest
from conftest import CODEWORD, SENT, strong

import gomzelat as gz

# The columns of the sub-block interleaver (36.212 table 5.1.4-1).
COLUMNS = [
    0,
    16,
    8,
    24,
    4,
    20,
    12,
    28,
    2,
    18,
    10,
    26,
    6,
    22,
    14,
    30,
    1,
    17,
    9,
    25,
    5,
    21,
    13,
    29,
    3,
    19,
    11,
    27,
    7,
    23,
    15,
    31,
]


def remainder(polynomial: int, bits: list[int]) -> int:
    value = int("".join(map(str, bits)) + "0" * 24, 2)
    while value.bit_length() > 24:
        value ^= (polynomial | 1 << 24) << (value.bit_length() - 25)
    return value


def buffer_of(d: np.ndarray) -> np.ndarray:
    """The circular buffer of coded streams, straight from 36.212 5.1.4.1.1 and 5.1.4.1.2."""
    rows = -(-d.shape[1] // 32)
    padded = np.concatenate([np.full((3, 32 * rows - d.shape[1]), gz.NULL, np.uint8), d], axis=1)
    v0, v1 = (it.reshape(rows, 32)[:, COLUMNS].T.reshape(-1) for it in padded[:2])
    v2 = [padded[2][(COLUMNS[k // rows] + 32 * (k % rows) + 1) % (32 * rows)] for k in range(32 * rows)]
    return np.concatenate([v0, np.stack([v1, v2], axis=1).reshape(-1)])


def test_codewords_are_the_worked_ones(good):
    assert gz.codeword(SENT, good).tobytes() == CODEWORD
    assert gz.codeword(SENT, good, bits=True).tolist() == gz.unpack(CODEWORD, 132).tolist()
    sent = [gz.Transmission(2, 8, rv) for rv in (1, 2, 3)] + [good]
    assert [it.tobytes() for it in gz.codewords(SENT, sent)] == [b"\x24", b"\xe6", b"\x10", CODEWORD]
    assert [it.size for it in gz.codewords(SENT, sent, bits=True)] == [8, 8, 8, 132]


def test_a_buffer_above_the_range_is_a_full_one(good):
    assert gz.codeword(SENT, good, 2**70).tobytes() == CODEWORD


def test_plans_are_those_of_the_standard():
    assert gz.plan(1) == gz.Plan(c=1, k_plus=40, k_minus=0, c_plus=1, c_minus=0, f=8)
    assert gz.plan(9422) == gz.Plan(c=13, k_plus=5824, k_minus=5760, c_plus=13, c_minus=0, f=0)


@pytest.mark.parametrize("length", [1, 100, 766, 2000])
def test_stages_follow_from_each_other(length):
    payload = gz.trial_payload(length, 7)
    cut, told = gz.plan(length), gz.Transmission(4, 8 * 4 * length, 2, 2)
    found = []
    for r in range(cut.c):
        block, d, at = gz.code_block(payload, r), gz.streams(payload, r), gz.piece(length, r, told)
        fill = cut.f if r == 0 else 0
        assert (at.k, at.fill, block.size) == (cut.size(r), fill, cut.size(r))
        assert (d[:2, :fill] == gz.NULL).all() and (d[0, fill : at.k] == block[fill:]).all()
        buffer = buffer_of(d)
        spots = gz.spots(length, r)
        named = np.where(spots[:, 0] < 0, gz.NULL, d[spots[:, 0], spots[:, 1]])
        assert buffer.size == at.buffer and (named == buffer).all()
        # From k0 on, round the buffer, without what is NULL.
        turned = np.roll(buffer[: at.places], -(at.start % at.places))
        sent = np.resize(turned[turned != gz.NULL], at.bits)
        assert (gz.select(payload, r, told) == sent).all()
        assert gz.crc24b(block[:-24]).tolist() == block[-24:].tolist() or cut.c == 1
        found.append(sent)
    assert np.concatenate(found).tolist() == gz.codeword(payload, told, bits=True).tolist()


@pytest.mark.parametrize("count", [0, 1, 25, 800])
def test_check_bits_are_remainders(count):
    bits = np.random.default_rng(count).integers(0, 2, count).tolist()
    for call, polynomial in ((gz.crc24a, 0x864CFB), (gz.crc24b, 0x800063)):
        assert int("".join(map(str, call(bits))), 2) == remainder(polynomial, bits)


def test_what_was_sent_is_received(good):
    outcome = gz.receive(2, [good], strong(gz.unpack(CODEWORD, 132)))
    assert (outcome.payload.tobytes(), outcome.transmissions, outcome.delivered) == (SENT, 1, True)
    failed = gz.receive(2, [good, good], np.full(264, -1, np.int8))
    assert (failed.payload, failed.transmissions, failed.delivered) == (None, 2, False)


def test_a_code_block_by_itself_is_decoded():
    payload = gz.trial_payload(100, 1)
    d = gz.streams(payload, 0)
    told = gz.decode_block(832, strong(d, 30), fill=8, check=gz.Check.CRC24A)
    assert (
        told.passed and told.bits.tolist() == gz.code_block(payload, 0).tolist() and 1 <= told.iterations <= 2
    )
    payload = gz.trial_payload(800, 1)
    told = gz.decode_block(gz.plan(800).size(1), strong(gz.streams(payload, 1), 30), check=gz.Check.CRC24B)
    assert told.passed and told.bits.tolist() == gz.code_block(payload, 1).tolist()
    assert not gz.decode_block(40, np.full(132, -9, np.int8)).passed


def test_noise_and_payloads_are_the_worked_ones():
    zeros = [16, 62, 52, 20, 50, 53, 27, 67, 16, 37, 42, 30, 17, 75, 58, 43, 34, 54]
    assert gz.noisy(bytes(3), 18, gz.Channel(40, 20, 5)).tolist() == zeros
    late = gz.Channel(amp=1, noise=127, seed=0x0102030405060708)
    assert gz.noisy(b"\0", 8, late, 258, 7).tolist() == [-25, -127, 86, 127, -59, -43, 127, -127]
    assert gz.trial_payload(8, seed=1).tobytes() == bytes.fromhex("A5555A9341037952")
    assert gz.trial_payload(8, 0x0102030405060708, 258).tobytes() == bytes.fromhex("581C0AC06FC52867")
    assert gz.noisy(b"", 0, gz.Channel(40, 20, 5)).size == 0


def test_threads_decode_at_once(good):
    values, found = strong(gz.unpack(CODEWORD, 132)), []
    threads = [
        threading.Thread(target=lambda: found.append(gz.receive(2, [good], values).delivered))
        for _ in range(8)
    ]
    for it in threads:
        it.start()
    for it in threads:
        it.join()
    assert found == [True] * 8


def test_the_interpreters_lock_is_open_during_a_call():
    sent = [gz.Transmission(2, 60000, rv % 4) for rv in range(8)]
    values = np.random.default_rng(1).integers(-20, 21, 8 * 60000).astype(np.int8)
    ticks, ends = [], threading.Event()

    def tick():
        while not ends.wait(0.001):
            ticks.append(time.monotonic())

    thread = threading.Thread(target=tick)
    thread.start()
    began = time.monotonic()
    assert not gz.receive(7000, sent, values, limit=16).delivered
    took = time.monotonic() - began
    ends.set()
    thread.join()
    # Another thread ran in the midst of the one call.
    assert any(0.2 * took < it - began < 0.8 * took for it in ticks)


def test_soft_values_of_ratios():
    assert gz.quantise([0.4, -0.6, 1e9, -np.inf], 1).tolist() == [0, -1, 127, -127]
    assert gz.quantise(np.array([[1.0, -2.0]]), -10).tolist() == [[-10, 20]]
    out = np.zeros(2, np.int8)
    assert gz.quantise([1, 2], 3, out=out) is out and out.tolist() == [3, 6]
    with pytest.raises(TypeError):
        gz.quantise([1, 2], out=np.zeros(2, np.uint8))
    with pytest.raises(ValueError):
        gz.quantise([1, 2], out=np.zeros(3, np.int8))
    for bad, scale in (([np.nan], 1), ([1.0], np.nan), ([1.0], np.inf)):
        with pytest.raises(ValueError):
            gz.quantise(bad, scale)
