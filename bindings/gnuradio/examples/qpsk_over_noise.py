#!/usr/bin/env python3
"""Payloads over QPSK and a channel with noise, and how many arrive.

    PYTHONPATH=bindings/gnuradio python3 bindings/gnuradio/examples/qpsk_over_noise.py --snr 2 --blocks 50
"""

from __future__ import annotations

import argparse
import math
import time

import numpy as np
import pmt
from gnuradio import analog, blocks, digital, gr, pdu

from gomzelat_gnuradio import Decoder, Encoder

LENGTH, G = 100, 1600
TAG = "packet_len"
ROOT = math.sqrt(0.5)
# The points of 36.211 7.1.2, of which the first bit of two is the sign of the real part.
POINTS = [ROOT + ROOT * 1j, ROOT - ROOT * 1j, -ROOT + ROOT * 1j, -ROOT - ROOT * 1j]


class Sink(gr.basic_block):
    """Keeps the PDUs that arrive."""

    def __init__(self) -> None:
        gr.basic_block.__init__(self, name="sink", in_sig=None, out_sig=None)
        self.arrived: list[tuple[dict[str, object], bytes]] = []
        self.message_port_register_in(pmt.intern("pdus"))
        self.set_msg_handler(pmt.intern("pdus"), self._keep)

    def _keep(self, message: object) -> None:
        payload = bytes(pmt.u8vector_elements(pmt.cdr(message)))
        self.arrived.append((pmt.to_python(pmt.car(message)), payload))


class Link(gr.top_block):
    """An encoder, QPSK, noise, soft decisions and a decoder."""

    def __init__(self, snr: float, seed: int = 1) -> None:
        gr.top_block.__init__(self, "QPSK over noise")
        self.encoder, self.decoder, self.sink = Encoder(G), Decoder(LENGTH, G, scale=-8.0), Sink()
        constellation = digital.constellation_calcdist(POINTS, [], 4, 1)
        noise = analog.noise_source_c(analog.GR_GAUSSIAN, 10 ** (-snr / 20), seed)
        added = blocks.add_cc()
        sender, receiver = pdu.pdu_to_tagged_stream(gr.types.byte_t, TAG), pdu.tagged_stream_to_pdu(
            gr.types.float_t, TAG
        )
        self.connect(
            sender,
            blocks.repack_bits_bb(1, 2, TAG, False, gr.GR_MSB_FIRST),
            digital.chunks_to_symbols_bc(POINTS),
            added,
            digital.constellation_soft_decoder_cf(constellation.base()),
            blocks.tagged_stream_multiply_length(gr.sizeof_float, TAG, 2),
            receiver,
        )
        self.connect(noise, (added, 1))
        self.msg_connect((self.encoder, "pdus"), (sender, "pdus"))
        self.msg_connect((receiver, "pdus"), (self.decoder, "pdus"))
        self.msg_connect((self.decoder, "pdus"), (self.sink, "pdus"))

    def send(self, payloads: list[bytes], seconds: float = 60) -> None:
        """Sends payloads, and waits until as many PDUs arrived or the time is over."""
        self.start()
        for payload in payloads:
            made = pmt.cons(pmt.make_dict(), pmt.init_u8vector(len(payload), list(payload)))
            self.encoder.to_basic_block().post(pmt.intern("pdus"), made)
        ends = time.monotonic() + seconds
        while len(self.sink.arrived) < len(payloads) and time.monotonic() < ends:
            time.sleep(0.01)
        self.stop()
        self.wait()


def main() -> None:
    words = argparse.ArgumentParser(description=__doc__, formatter_class=argparse.RawDescriptionHelpFormatter)
    words.add_argument("--snr", type=float, default=2.0, help="E_s/N_0 in dB (2)")
    words.add_argument("--blocks", type=int, default=50, help="how many payloads (50)")
    given = words.parse_args()
    payloads = [np.random.default_rng(it).bytes(LENGTH) for it in range(given.blocks)]
    link = Link(given.snr)
    link.send(payloads)
    right = sum(
        bool(told["delivered"]) and got == sent for sent, (told, got) in zip(payloads, link.sink.arrived)
    )
    print(f"{len(link.sink.arrived)} arrived, of which {right} are delivered as they were sent")


if __name__ == "__main__":
    main()
