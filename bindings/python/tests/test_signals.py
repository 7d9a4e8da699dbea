"""Scrambling and points against the formulas of 36.211."""

import numpy as np
import pytest

import gomzelat as gz

MOST = gz.Scrambling(rnti=65535, q=1, slot=19, cell=503)


def sequence(init: int, count: int) -> np.ndarray:
    """c of 36.211 7.2."""
    x1, x2 = [1] + [0] * 30, [init >> i & 1 for i in range(31)]
    for n in range(1600 + count):
        x1.append(x1[n + 3] ^ x1[n])
        x2.append(x2[n + 3] ^ x2[n + 2] ^ x2[n + 1] ^ x2[n])
    return np.array(x1[1600 : 1600 + count]) ^ np.array(x2[1600 : 1600 + count])


def point(bits: list[int]) -> complex:
    """A point of 36.211 7.1.2 to 7.1.4, times the square root of its order's mean power."""

    def level(of: list[int]) -> int:
        sign = [1 - 2 * it for it in of]
        return (
            [sign[0], 0, 0][0]
            if len(of) == 1
            else sign[0] * (2 - sign[1] if len(of) == 2 else 4 - sign[1] * (2 - sign[2]))
        )

    return complex(level(bits[0::2]), level(bits[1::2]))


@pytest.mark.parametrize(
    "told, init", [(gz.Scrambling(0), 0), (MOST, 1073738743), (gz.Scrambling(77, 0, 5, 9), 1262601)]
)
def test_scrambling_is_the_standards(told, init):
    assert gz.scrambling_init(told) == init
    bits = np.random.default_rng(1).integers(0, 2, 203).astype(np.uint8)
    c = sequence(init, 203)
    scrambled = gz.scramble(gz.pack(bits), told, 203)
    assert scrambled.tolist() == gz.pack(bits ^ c.astype(np.uint8)).tolist()
    assert gz.scramble(scrambled, told, 203).tolist() == gz.pack(bits).tolist()
    values = np.random.default_rng(2).integers(-128, 128, 203).astype(np.int8)
    turned = np.where(c == 1, -1, 1) * np.maximum(values, -127).astype(int)
    assert gz.descramble(values, told).tolist() == turned.tolist()


def test_scrambling_where_the_bits_stand():
    data = np.arange(9, dtype=np.uint8)
    kept = data.copy()
    gz.scramble(data, MOST, out=data)
    assert data.tolist() != kept.tolist()
    gz.scramble(data, MOST, out=data)
    assert data.tolist() == kept.tolist()
    values = np.arange(9, dtype=np.int8)
    gz.descramble(values, MOST, out=values)
    assert np.abs(values).tolist() == list(range(9))
    with pytest.raises(ValueError):
        gz.scramble(data, MOST, out=np.zeros(8, np.uint8))


@pytest.mark.parametrize("qm", [2, 4, 6])
def test_points_are_the_standards(qm):
    bits = np.random.default_rng(qm).integers(0, 2, 60 * qm).astype(np.uint8)
    points = gz.map_bits(gz.pack(bits), qm, bits.size)
    assert points.dtype == np.complex64
    assert points.tolist() == [point(it) for it in bits.reshape(-1, qm).tolist()]
    every = gz.map_bits(
        gz.pack(np.unpackbits(np.arange(2**qm, dtype=np.uint8)[:, None], axis=1)[:, 8 - qm :].reshape(-1)),
        qm,
        qm * 2**qm,
    )
    assert np.mean(np.abs(every * gz.UNIT_POWER[qm]) ** 2) == pytest.approx(1)


@pytest.mark.parametrize("qm", [2, 4, 6])
def test_soft_values_are_distances(qm):
    amp, random = 11, np.random.default_rng(qm)
    received = random.integers(-100, 101, 40) + 1j * random.integers(-100, 101, 40)
    labels = [[n >> (qm - 1 - i) & 1 for i in range(qm)] for n in range(2**qm)]
    far = np.abs(received[:, None] - amp * np.array([point(it) for it in labels])) ** 2
    bits = np.array(labels)
    wanted = [
        [(far[s, bits[:, i] == 1].min() - far[s, bits[:, i] == 0].min()) / (4 * amp) for i in range(qm)]
        for s in range(40)
    ]
    found = gz.demap_points(received, qm, amp)
    assert found.reshape(40, qm).tolist() == np.clip(np.trunc(np.round(wanted, 6)), -127, 127).tolist()


def test_coordinates_are_rounded_and_lists_are_taken():
    assert gz.demap_points(np.array([39.6 - 40.4j], np.complex64), 2, 40).tolist() == [40, -40]
    assert gz.demap_points([], 2, 40).size == 0 and gz.map_bits(b"", 6).size == 0
