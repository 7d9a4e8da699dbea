"use strict";
// The calls of the module, for the page, its worker and Node. Each throws { refused: NUMBER } where the module refuses.

// Names nothing outside of itself, since a worker is made of its text.
function callsOf(exports) {
  // Structures of up to 16 bytes are passed as one or two numbers of 64 bits.
  const wide = (low, high) => BigInt(low) | (BigInt(high) << 32n);
  const sent = (t) => [wide(t.qm, t.nl), wide(t.g, t.rv)];
  const by = (s) => [wide(s.rnti, s.q), wide(s.slot, s.cell)];

  const view = (at, n) => new Uint8Array(exports.memory.buffer, Number(at), n);
  const put = (at, array) => view(at, array.byteLength).set(new Uint8Array(array.buffer, array.byteOffset, array.byteLength));
  const got = (Type, at, n) => new Type(view(at, n * Type.BYTES_PER_ELEMENT).slice().buffer);
  const sizes = (at, n) => Array.from(got(BigUint64Array, at, n), Number);
  const accept = (answer) => {
    if (answer) throw { refused: answer };
  };

  // Buffers of these sizes are taken from the module's memory for one call.
  const lent = (bytes, use) => {
    const at = bytes.map((n) => exports.room(BigInt(Math.max(n, 1))));
    try {
      if (at.some((it) => !it)) throw { refused: 1 };
      return use(...at);
    } finally {
      at.filter((it) => it).forEach((it) => exports.give_back(it));
    }
  };

  // Cells of a code block, a byte each.
  const ofBlock = (call) => (payload, r, n) => lent([payload.length, n], (from, out) => {
    put(from, payload);
    accept(exports[call](from, BigInt(payload.length), BigInt(r), out, BigInt(n)));
    return got(Uint8Array, out, n);
  });

  return {
    plan: (length) => lent([48], (out) => {
      accept(exports.gomzelat_plan(BigInt(length), out));
      const [c, kPlus, kMinus, cPlus, cMinus, f] = sizes(out, 6);
      return { c, kPlus, kMinus, cPlus, cMinus, f };
    }),
    codeBlock: ofBlock("gomzelat_code_block"),
    streams: ofBlock("gomzelat_streams"),
    spots: (length, r, n) => lent([4 * n], (out) => {
      accept(exports.gomzelat_spots(BigInt(length), BigInt(r), out, BigInt(n)));
      return got(Uint32Array, out, n);
    }),
    piece: (length, r, t, nIr) => lent([48], (out) => {
      accept(exports.gomzelat_piece(BigInt(length), BigInt(r), ...sent(t), nIr, out));
      const [k, fill, buffer, places, start, bits] = sizes(out, 6);
      return { k, fill, buffer, places, start, bits };
    }),
    select: (payload, r, t, nIr, n) => lent([payload.length, n], (from, out) => {
      put(from, payload);
      accept(exports.gomzelat_select(from, BigInt(payload.length), BigInt(r), ...sent(t), nIr, out, BigInt(n)));
      return got(Uint8Array, out, n);
    }),
    codeword: (payload, t, nIr) => lent([payload.length, Math.ceil(t.g / 8)], (from, out) => {
      const n = Math.ceil(t.g / 8);
      put(from, payload);
      accept(exports.gomzelat_codeword(from, BigInt(payload.length), ...sent(t), nIr, out, BigInt(n)));
      return got(Uint8Array, out, n);
    }),
    init: (scrambling) => lent([4], (out) => {
      accept(exports.gomzelat_init(...by(scrambling), out));
      return got(Uint32Array, out, 1)[0];
    }),
    scramble: (bits, count, scrambling) => lent([bits.length], (at) => {
      put(at, bits);
      accept(exports.gomzelat_scramble(at, BigInt(bits.length), BigInt(count), ...by(scrambling)));
      return got(Uint8Array, at, bits.length);
    }),
    descramble: (values, scrambling) => lent([values.length], (at) => {
      put(at, values);
      accept(exports.gomzelat_descramble(at, BigInt(values.length), ...by(scrambling)));
      return got(Int8Array, at, values.length);
    }),
    // Points are two numbers each, one after the other.
    map: (bits, count, qm) => lent([bits.length, (8 * count) / qm], (from, out) => {
      put(from, bits);
      accept(exports.gomzelat_map(from, BigInt(bits.length), BigInt(count), qm, out, BigInt(Math.floor(count / qm))));
      return got(Int32Array, out, (2 * count) / qm);
    }),
    demap: (points, qm, amp) => lent([points.byteLength, (points.length / 2) * qm], (from, out) => {
      const count = points.length / 2;
      put(from, points);
      accept(exports.gomzelat_demap(from, BigInt(count), qm, amp, out, BigInt(count * qm)));
      return got(Int8Array, out, count * qm);
    }),
    noisy: (bits, count, channel, number) => lent([bits.length, count], (from, out) => {
      put(from, bits);
      accept(exports.gomzelat_noisy(from, BigInt(bits.length), BigInt(count), BigInt(channel.seed),
        wide(channel.amp, channel.noise), 0, number, out, BigInt(count)));
      return got(Int8Array, out, count);
    }),
    receive: (length, ts, receiver, values) => lent([16 * ts.length, values.length, length, 24], (list, from, out, told) => {
      put(list, new Uint32Array(ts.flatMap((t) => [t.qm, t.nl, t.g, t.rv])));
      put(from, values);
      accept(exports.gomzelat_receive(BigInt(length), list, BigInt(ts.length), wide(receiver.nIr, receiver.windows),
        receiver.limit, from, BigInt(values.length), out, BigInt(length), told));
      const [delivered, transmissions, iterations] = sizes(told, 3);
      return { delivered: Boolean(delivered & 1), transmissions, iterations, payload: got(Uint8Array, out, length) };
    }),
  };
}
