"""The blocks in flow graphs, headless."""

import os
import shutil
import subprocess
import sys
import time
from pathlib import Path

import numpy as np
import pytest

pytest.importorskip("gnuradio")

import pmt  # noqa: E402
from gnuradio import gr  # noqa: E402
from qpsk_over_noise import Link, Sink  # noqa: E402

import gomzelat as gz  # noqa: E402
from gomzelat_gnuradio import Decoder, Encoder  # noqa: E402

HERE = Path(__file__).resolve().parent.parent
PAYLOADS = [np.random.default_rng(it).bytes(100) for it in range(20)]


def pdu(made, **told):
    return pmt.cons(pmt.to_pmt(told), made)


def through(block, messages, count, seconds=30):
    """What leaves a block for messages, as soon as it is so many."""
    graph, sink = gr.top_block(), Sink()
    graph.msg_connect((block, "pdus"), (sink, "pdus"))
    graph.start()
    for it in messages:
        block.to_basic_block().post(pmt.intern("pdus"), it)
    ends = time.monotonic() + seconds
    while len(sink.arrived) < count and time.monotonic() < ends:
        time.sleep(0.01)
    graph.stop()
    graph.wait()
    return sink.arrived


def bytes_pdu(payload):
    return pdu(pmt.init_u8vector(len(payload), list(payload)), name="a")


@pytest.mark.parametrize("snr, delivered", [(9.0, 20), (-9.0, 0)])
def test_payloads_over_qpsk_and_noise(snr, delivered):
    link = Link(snr)
    link.send(PAYLOADS)
    assert len(link.sink.arrived) == 20
    right = [told["delivered"] and got == sent for sent, (told, got) in zip(PAYLOADS, link.sink.arrived)]
    assert sum(right) == delivered
    assert all(told["transmissions"] == 1 and told["iterations"] >= 1 for told, _ in link.sink.arrived)


def test_an_encoder_sends_each_version():
    arrived = through(Encoder(1000, 4, versions=(0, 2)), [bytes_pdu(it) for it in PAYLOADS[:2]], 4)
    assert [(told["rv"], told["new"], told["name"]) for told, _ in arrived] == [
        (0, True, "a"),
        (2, False, "a"),
    ] * 2
    for (told, bits), payload in zip(arrived, (PAYLOADS[0], PAYLOADS[0], PAYLOADS[1], PAYLOADS[1])):
        sent = gz.Transmission(4, 1000, told["rv"])
        assert list(bits) == gz.codeword(payload, sent, bits=True).tolist()


def test_a_decoder_combines_until_a_payload_is_new():
    sent = [gz.Transmission(2, 840, rv) for rv in (0, 2)]
    messages = []
    for payload in PAYLOADS[:3]:
        for number, it in enumerate(sent):
            softs = gz.noisy(gz.codeword(payload, it), it.g, gz.Channel(30, 22, 4), 0, number)
            messages.append(pdu(pmt.init_s8vector(softs.size, softs.tolist()), rv=it.rv, new=number == 0))
    arrived = through(Decoder(100, 840), messages, 6)
    assert [(told["transmissions"], told["delivered"]) for told, _ in arrived] == [(1, False), (2, True)] * 3
    assert [got for told, got in arrived if told["delivered"]] == PAYLOADS[:3]


def test_floats_have_the_sign_that_the_scale_says():
    bits = gz.codeword(PAYLOADS[0], gz.Transmission(2, 1600), bits=True)
    for sign in (1, -1):
        values = (sign * (1.0 - 2.0 * bits)).tolist()
        [(told, got)] = through(
            Decoder(100, 1600, scale=sign * 30), [pdu(pmt.init_f32vector(1600, values))], 1
        )
        assert told["delivered"] and got == PAYLOADS[0]


def test_what_is_bad_is_dropped():
    good = bytes_pdu(PAYLOADS[0])
    for bad in (
        bytes_pdu(b""),
        bytes_pdu(bytes(18723)),
        pdu(pmt.init_f32vector(1, [0.0])),
        pmt.intern("no pair"),
    ):
        assert len(through(Encoder(1600), [bad, good], 1)) == 1
    floats = pdu(pmt.init_f32vector(1600, [30.0] * 1600))
    few, wrong = pdu(pmt.init_f32vector(2, [0.0] * 2)), pdu(pmt.init_u8vector(1600, [0] * 1600))
    late, unnamed = (pdu(pmt.init_f32vector(1600, [30.0] * 1600), rv=rv) for rv in (4, "first"))
    early = pdu(pmt.init_f32vector(1600, [30.0] * 1600), rv=-1)
    for bad in (
        few,
        wrong,
        late,
        early,
        unnamed,
        pmt.intern("no pair"),
        pdu(pmt.init_f32vector(1600, [float("nan")] * 1600)),
    ):
        assert len(through(Decoder(100, 1600), [bad, floats], 1)) == 1


def test_what_a_block_is_not_made_of():
    for length in (0, 18723, -1):
        with pytest.raises(gz.Refused):
            Decoder(length, 1600)
    with pytest.raises(TypeError):
        Decoder("100", 1600)
    # The numbers of transmissions are refused with the first PDU.
    assert through(Encoder(1601), [bytes_pdu(PAYLOADS[0])], 1, seconds=1) == []
    assert through(Decoder(100, 1601), [pdu(pmt.init_f32vector(1601, [30.0] * 1601))], 1, seconds=1) == []


@pytest.mark.skipif(not shutil.which("grcc"), reason="there is no grcc")
def test_the_companions_flow_graph_runs(tmp_path):
    paths = [str(HERE), str(Path(gz.__file__).resolve().parent.parent), os.environ.get("PYTHONPATH", "")]
    words = {
        **os.environ,
        "GRC_BLOCKS_PATH": str(HERE / "grc"),
        "PYTHONPATH": os.pathsep.join(paths),
        "HOME": str(tmp_path),
    }
    example = HERE / "examples" / "qpsk_over_noise.grc"
    subprocess.run(["grcc", "-o", str(tmp_path), str(example)], env=words, check=True, capture_output=True)
    made = [sys.executable, "-u", str(tmp_path / "qpsk_over_noise_flow.py"), "--snr", "6"]
    with subprocess.Popen(made, env=words, stdout=subprocess.PIPE, text=True) as ran:
        assert any("delivered . #t" in line for line in ran.stdout)
        ran.kill()
