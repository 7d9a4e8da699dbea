"""A block that decodes payloads from soft values."""

from __future__ import annotations

from typing import Any

import numpy as np
import numpy.typing as npt
import pmt
from gnuradio import gr

from gomzelat import Harq, Transmission, quantise


class Decoder(gr.basic_block):
    """PDUs of soft values to PDUs of bytes.

    A PDU is one transmission: int8 soft values, positive where 0 is likelier, or floats, which are quantised. Its
    metadata `rv` is its redundancy version, by default 0. One with `new` starts a new payload, as does one after a
    delivered payload; the others are combined with those before.

    After each transmission a PDU is emitted: the decided bytes, with the metadata of the transmission, and `delivered`,
    whether all checks held, `transmissions`, how many there were so far, and `iterations`.

    Parameters
    ----------
    length : int
        The bytes of a payload.
    g, qm, nl, n_ir : int
        As the encoder's.
    scale : float
        What a float of 1 becomes; negative if those above 0 mean that 1 is likelier, as in GNU Radio's soft decoders.
    windows, limit : int
        The most windows and iterations of a code block.
    """

    def __init__(
        self,
        length: int,
        g: int,
        qm: int = 2,
        nl: int = 1,
        n_ir: int = 0,
        scale: float = -8.0,
        windows: int = 8,
        limit: int = 8,
    ) -> None:
        gr.basic_block.__init__(self, name="gomzelat decoder", in_sig=None, out_sig=None)
        self._numbers = (length, n_ir, windows, limit)
        self._g, self._qm, self._nl, self._scale = g, qm, nl, scale
        self._harq = Harq(*self._numbers)
        self.message_port_register_in(pmt.intern("pdus"))
        self.message_port_register_out(pmt.intern("pdus"))
        self.set_msg_handler(pmt.intern("pdus"), self._decode)

    def _values(self, vector: Any) -> npt.NDArray[np.int8]:
        if pmt.is_s8vector(vector):
            return np.array(pmt.s8vector_elements(vector), np.int8)
        return quantise(pmt.f32vector_elements(vector), self._scale)

    def _decode(self, pdu: Any) -> None:
        try:
            told = pmt.car(pdu) if pmt.is_dict(pmt.car(pdu)) else pmt.make_dict()
            rv = pmt.to_long(pmt.dict_ref(told, pmt.intern("rv"), pmt.from_long(0)))
            new = pmt.is_true(pmt.dict_ref(told, pmt.intern("new"), pmt.PMT_F))
            if new or self._harq.delivered:
                self._harq = Harq(*self._numbers)
            self._harq.add(Transmission(self._qm, self._g, rv, self._nl), self._values(pmt.cdr(pdu)))
            self._harq.decode()
        except (RuntimeError, TypeError, ValueError) as refused:
            # One bad PDU doesn't stop the flow graph.
            self.logger.warn(f"a transmission is dropped: {refused}")
            return
        self._publish(told)

    def _publish(self, told: Any) -> None:
        for name, value in (
            ("delivered", pmt.from_bool(self._harq.delivered)),
            ("transmissions", pmt.from_long(self._harq.transmissions)),
            ("iterations", pmt.from_long(int(self._harq.iterations.sum()))),
        ):
            told = pmt.dict_add(told, pmt.intern(name), value)
        payload = self._harq.payload
        made = pmt.init_u8vector(payload.size, payload.tolist())
        self.message_port_pub(pmt.intern("pdus"), pmt.cons(told, made))
