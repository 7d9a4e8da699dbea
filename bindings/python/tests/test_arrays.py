"""What is taken as arrays, what isn't, and that nothing is copied without need."""

import array

import numpy as np
import pytest
from conftest import CODEWORD, SENT, refuses, strong

import gomzelat as gz
from gomzelat.arrays import bytes_of, softs_of


def test_bytes_are_taken_from_whatever_has_them(good):
    wide = np.zeros((2, 2), np.uint8)
    wide[:, 1] = list(SENT)
    for taken in (SENT, bytearray(SENT), memoryview(SENT), array.array("B", SENT), list(SENT), wide[:, 1]):
        assert gz.codeword(taken, good).tobytes() == CODEWORD


def test_soft_values_are_taken_from_whatever_has_them(good):
    values = strong(gz.unpack(CODEWORD, 132))
    wide = np.repeat(values, 2)
    for taken in (values, memoryview(values), array.array("b", values.tobytes()), values.tolist(), wide[::2]):
        assert gz.receive(2, [good], taken).payload.tobytes() == SENT


def test_what_can_only_be_read_is_not_copied():
    values = np.zeros(8, np.int8)
    values.flags.writeable = False
    data = np.frombuffer(bytes(8), np.uint8)
    assert np.shares_memory(softs_of(values), values)
    assert np.shares_memory(bytes_of(data, "data"), data)


def test_the_callers_array_is_written_to(good):
    out = np.full(20, 7, np.uint8)
    made = gz.codeword(SENT, good, out=out)
    assert np.shares_memory(made, out) and made.tobytes() == CODEWORD and set(out[17:]) == {7}
    softs = np.full(10, 7, np.int8)
    assert np.shares_memory(gz.noisy(b"\0", 8, gz.Channel(40, 0, 1), out=softs), softs)
    assert softs.tolist() == [40] * 8 + [7] * 2


@pytest.mark.parametrize(
    "bad", [np.zeros(2), np.zeros(2, np.int8), np.zeros(2, np.int64), "ab", [0.5], [True, "a"], [None], 3.5]
)
def test_what_is_no_bytes(bad, good):
    with pytest.raises(TypeError):
        gz.codeword(bad, good)


@pytest.mark.parametrize(
    "bad", [bytes(132), np.zeros(132), np.zeros(132, np.uint8), [0.0] * 132, "0" * 132, None, 1.5]
)
def test_what_is_no_soft_values(bad, good):
    for call in (lambda: gz.receive(2, [good], bad), lambda: gz.Harq(2).add(good, bad)):
        with pytest.raises(TypeError):
            call()


@pytest.mark.parametrize("bad", [[300], [-1], [0, 2**63], [-1, 2**63], [2**70], array.array("i", [256])])
def test_numbers_of_a_list_that_are_no_bytes(bad, good):
    refuses(gz.Answer.OUT_OF_RANGE, gz.codeword, bad, good)
    refuses(gz.Answer.OUT_OF_RANGE, gz.unpack, bad)


@pytest.mark.parametrize("bad", [128, -129, 2**63, -(2**70)])
def test_numbers_of_a_list_that_are_no_soft_values(bad, good):
    for values in ([bad] * 132, (0,) * 131 + (bad,)):
        refuses(gz.Answer.OUT_OF_RANGE, gz.receive, 2, [good], values)
        refuses(gz.Answer.OUT_OF_RANGE, gz.Harq(2).add, good, values)
        refuses(gz.Answer.OUT_OF_RANGE, gz.decode_block, 40, values)
        refuses(gz.Answer.OUT_OF_RANGE, gz.descramble, values, gz.Scrambling(0))


def test_what_is_no_bits():
    for call in (gz.pack, gz.crc24a, gz.crc24b):
        refuses(gz.Answer.OUT_OF_RANGE, call, [0, 2])
        refuses(gz.Answer.OUT_OF_RANGE, call, [-1])
        for bad in ([0.0], np.zeros(2), "01", [None]):
            with pytest.raises(TypeError):
                call(bad)
        assert call(np.array([True, False])).tolist() == call([1, 0]).tolist()
        assert call(np.array([1, 7, 0], np.uint8)[::2]).tolist() == call([True, False]).tolist()
    assert gz.pack([]).size == 0


@pytest.mark.parametrize("count", [17, -1, 2**70])
def test_more_bits_than_bytes_have(count):
    refuses(gz.Answer.BAD_BITS, gz.unpack, b"ab", count)
    assert gz.unpack(b"ab", 0).size == 0 and gz.unpack(b"", 0).size == gz.unpack(b"").size == 0


def test_what_cannot_be_written_to(good):
    fixed = np.zeros(17, np.uint8)
    fixed.flags.writeable = False
    both = np.zeros(40, np.uint8)
    for out, error in (
        (bytearray(17), TypeError),
        (np.zeros(17, np.int8), TypeError),
        (fixed, ValueError),
        (np.zeros(34, np.uint8)[::2], ValueError),
        (both, ValueError),
    ):
        with pytest.raises(error):
            gz.codeword(both[:2], good, out=out)
    with pytest.raises(TypeError):
        gz.codeword(SENT, good, bits=True, out=np.zeros(132, np.uint8))


@pytest.mark.parametrize("bad", ["1", ["1+1j"], [None], np.zeros(1, "U1"), {"a": 1}])
def test_what_is_no_real_or_complex_number(bad):
    for call in (lambda: gz.demap_points(bad, 2, 40), lambda: gz.quantise(bad)):
        with pytest.raises(TypeError):
            call()


def test_ratios_are_real():
    for bad in ([1j], np.zeros(2, np.complex64)):
        with pytest.raises(TypeError):
            gz.quantise(bad)


def test_the_order_of_bytes_and_of_items_is_any():
    ratios = np.array([[1.25, -2.0, 3.0], [4.0, -5.0, 6.0]])
    wanted = [[12, -20, 30], [40, -50, 60]]
    for kind in ("<f8", ">f8", "<f4", ">f4", ">f2"):
        for taken in (ratios.astype(kind), np.asfortranarray(ratios.astype(kind)), ratios.astype(kind)[:, :]):
            assert gz.quantise(taken, 10).tolist() == wanted
    assert gz.quantise(ratios[:, ::2], 10).tolist() == [[12, 30], [40, 60]]
    out = np.zeros((3, 2), np.int8).T
    assert gz.quantise(ratios, 10, out=out) is out and out.tolist() == wanted
    points = np.array([40 - 40j, 1j, -40 + 40j])
    for kind in ("<c16", ">c16", "<c8", ">c8"):
        assert gz.demap_points(points.astype(kind)[::2], 2, 40).tolist() == [40, -40, -40, 40]


def test_where_soft_values_cannot_be_written_to(good):
    fixed = np.zeros(8, np.int8)
    fixed.flags.writeable = False
    calls = (
        lambda out: gz.noisy(b"a", 8, gz.Channel(1, 1, 1), out=out),
        lambda out: gz.demap_points(np.zeros(4), 2, 1, out=out),
        lambda out: gz.descramble([0] * 8, gz.Scrambling(0), out=out),
        lambda out: gz.quantise(np.zeros(8), out=out),
    )
    for call in calls:
        for out in (bytearray(8), [0] * 8, np.zeros(8, np.uint8), np.zeros(8)):
            with pytest.raises(TypeError):
                call(out)
        for out in (fixed, np.zeros(7, np.int8)):
            with pytest.raises(ValueError):
                call(out)
    for call in calls[:3]:
        with pytest.raises(ValueError):
            call(np.zeros(16, np.int8)[::2])
    for shape in ((1, 8), (2, 8), (9,)):
        with pytest.raises(ValueError):
            gz.quantise(np.zeros(8), out=np.zeros(shape, np.int8))
    for out, error in ((np.zeros(2, np.int8), TypeError), (np.zeros(1, np.uint8), ValueError)):
        with pytest.raises(error):
            gz.scramble(b"ab", gz.Scrambling(0), out=out)


def test_nothing_is_taken_where_nothing_is_needed():
    assert gz.quantise([]).size == gz.demap_points([], 2, 1).size == gz.map_bits(b"", 2).size == 0
    assert gz.scramble(b"", gz.Scrambling(0)).size == gz.descramble([], gz.Scrambling(0)).size == 0
    assert gz.noisy([], 0, gz.Channel(1, 1, 1)).size == 0 and gz.crc24a([]).tolist() == [0] * 24
