"""A block that encodes payloads to bits."""

from __future__ import annotations

from collections.abc import Sequence
from typing import Any

import numpy as np
import pmt
from gnuradio import gr

from gomzelat import Transmission, codewords


class Encoder(gr.basic_block):
    """PDUs of bytes to PDUs of bits, 0 or 1 in a byte: for each payload one PDU per redundancy version.

    The metadata are those of the payload, and `rv`, the redundancy version, and `new`, whether it is the first of its
    payload.

    Parameters
    ----------
    g, qm, nl, n_ir : int
        G, Q_m and N_L of each transmission, and N_IR, or 0 for a full buffer.
    versions : sequence of int
        The redundancy versions that are sent.
    """

    def __init__(
        self, g: int, qm: int = 2, nl: int = 1, n_ir: int = 0, versions: Sequence[int] = (0,)
    ) -> None:
        gr.basic_block.__init__(self, name="gomzelat encoder", in_sig=None, out_sig=None)
        self._transmissions = [Transmission(qm, g, rv, nl) for rv in versions]
        self._n_ir = n_ir
        self.message_port_register_in(pmt.intern("pdus"))
        self.message_port_register_out(pmt.intern("pdus"))
        self.set_msg_handler(pmt.intern("pdus"), self._encode)

    def _encode(self, pdu: Any) -> None:
        try:
            payload = np.array(pmt.u8vector_elements(pmt.cdr(pdu)), np.uint8)
            sent = codewords(payload, self._transmissions, self._n_ir, bits=True)
        except (RuntimeError, TypeError, ValueError) as refused:
            # One bad PDU doesn't stop the flow graph.
            self.logger.warn(f"a payload is dropped: {refused}")
            return
        for number, (transmission, bits) in enumerate(zip(self._transmissions, sent)):
            told = pmt.car(pdu) if pmt.is_dict(pmt.car(pdu)) else pmt.make_dict()
            told = pmt.dict_add(told, pmt.intern("rv"), pmt.from_long(transmission.rv))
            told = pmt.dict_add(told, pmt.intern("new"), pmt.from_bool(number == 0))
            made = pmt.init_u8vector(bits.size, bits.tolist())
            self.message_port_pub(pmt.intern("pdus"), pmt.cons(told, made))
