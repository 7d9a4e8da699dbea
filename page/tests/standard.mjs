// A codec for tests, written from 36.212 and 36.211 without a look at the library: every stage of a transport block whose
// code blocks have one of a few sizes. A fault can be planted, to see that the page finds it.

// f1 and f2 of the internal interleaver (table 5.1.3-3).
const INTERLEAVERS = { 40: [3, 10], 512: [31, 64], 1024: [31, 64], 4096: [31, 64], 6144: [263, 480] };
const PERMUTATION = [0, 16, 8, 24, 4, 20, 12, 28, 2, 18, 10, 26, 6, 22, 14, 30,
  1, 17, 9, 25, 5, 21, 13, 29, 3, 19, 11, 27, 7, 23, 15, 31];
export const NULL = 2;
const CRC24A = 0x864cfb, CRC24B = 0x800063;

export const bitsOf = (bytes) => [...bytes].flatMap((it) => [7, 6, 5, 4, 3, 2, 1, 0].map((n) => (it >> n) & 1));
export const bytesOf = (bits) => Uint8Array.from({ length: Math.ceil(bits.length / 8) },
  (_, at) => [0, 1, 2, 3, 4, 5, 6, 7].reduce((n, i) => 2 * n + (bits[8 * at + i] ?? 0), 0));

// The remainder of the bits times D^24 (5.1.1).
function check(bits, polynomial) {
  let rest = 0;
  for (const bit of bits) rest = ((rest << 1) & 0xffffff) ^ ((rest >> 23) ^ bit ? polynomial : 0);
  return Array.from({ length: 24 }, (_, n) => (rest >> (23 - n)) & 1);
}

// Code blocks of one size (5.1.2), each with its fillers as NULL.
function segmented(payload) {
  const b = [...payload, ...check(payload, CRC24A)], count = b.length <= 6144 ? 1 : Math.ceil(b.length / (6144 - 24));
  const all = b.length + (count > 1 ? 24 * count : 0), k = Object.keys(INTERLEAVERS).map(Number).find((it) => count * it >= all);
  const fillers = count * k - all, own = count > 1 ? 24 : 0;
  let at = 0;
  return Array.from({ length: count }, (_, r) => {
    const fill = r === 0 ? fillers : 0, bits = b.slice(at, (at += k - own - fill));
    const known = [...Array(fill).fill(0), ...bits];
    return { fill, bits: own ? [...known, ...check(known, CRC24B)] : known };
  });
}

// A constituent coder: its parity bits and the tails of both outputs (5.1.3.2.1, 5.1.3.2.2).
function coded(bits) {
  let [a, b, c] = [0, 0, 0];
  const step = (bit) => {
    const back = bit ^ b ^ c, parity = back ^ a ^ c;
    [a, b, c] = [back, a, b];
    return parity;
  };
  const parity = bits.map(step), tail = [0, 1, 2].map(() => {
    const bit = b ^ c;
    return [bit, step(bit)];
  });
  return { parity, x: tail.map((it) => it[0]), z: tail.map((it) => it[1]) };
}

function streams({ bits, fill }) {
  const k = bits.length, [f1, f2] = INTERLEAVERS[k];
  const one = coded(bits), two = coded(bits.map((_, i) => bits[(f1 * i + f2 * i * i) % k]));
  const held = (list) => list.map((it, i) => (i < fill ? NULL : it));
  return [
    [...held(bits), one.x[0], one.z[1], two.x[0], two.z[1]],
    [...held(one.parity), one.z[0], one.x[2], two.z[0], two.x[2]],
    [...two.parity, one.x[1], one.z[2], two.x[1], two.z[2]],
  ];
}

// The circular buffer (5.1.4.1.1, and the beginning of 5.1.4.1.2).
function circular(d, permutation) {
  const rows = Math.ceil(d[0].length / 32), size = 32 * rows;
  const [y0, y1, y2] = d.map((it) => [...Array(size - it.length).fill(NULL), ...it]);
  const columns = (y) => Array.from({ length: size }, (_, k) => y[permutation[Math.floor(k / rows)] + 32 * (k % rows)]);
  const v2 = Array.from({ length: size },
    (_, k) => y2[(permutation[Math.floor(k / rows)] + 32 * (k % rows) + 1) % size]);
  return { rows, w: [...columns(y0), ...columns(y1).flatMap((it, k) => [it, v2[k]])] };
}

function selected({ rows, w }, count, { rv, nIr }, bits) {
  const places = nIr ? Math.min(Math.floor(nIr / count), w.length) : w.length, out = [];
  for (let at = rows * (2 * Math.ceil(places / (8 * rows)) * rv + 2); out.length < bits; at++)
    if (w[at % places] !== NULL) out.push(w[at % places]);
  return out;
}

// E of code block r (5.1.4.1.2).
function pieceBits(r, count, { qm, nl, g }) {
  const symbols = g / (nl * qm), rest = symbols % count;
  return nl * qm * (r <= count - rest - 1 ? Math.floor(symbols / count) : Math.ceil(symbols / count));
}

// The sequence c of 36.211, 7.2.
function sequence(init, count) {
  const x1 = [1, ...Array(30).fill(0)], x2 = Array.from({ length: 31 }, (_, i) => (init >> i) & 1);
  for (let n = 0; n < 1600 + count; n++) {
    x1.push(x1[n + 3] ^ x1[n]);
    x2.push(x2[n + 3] ^ x2[n + 2] ^ x2[n + 1] ^ x2[n]);
  }
  return Array.from({ length: count }, (_, n) => x1[n + 1600] ^ x2[n + 1600]);
}

function mapped(bits, qm) {
  const sign = (bit) => 1 - 2 * bit;
  const level = (b) => (b.length === 1 ? sign(b[0]) : b.length === 2 ? sign(b[0]) * (2 - sign(b[1]))
    : sign(b[0]) * (4 - sign(b[1]) * (2 - sign(b[2]))));
  return Array.from({ length: bits.length / qm }, (_, s) => {
    const own = bits.slice(s * qm, (s + 1) * qm);
    return [level(own.filter((_, i) => i % 2 === 0)), level(own.filter((_, i) => i % 2 === 1))];
  });
}

// All stages of a payload's bytes: of each code block, and of the codeword. `exchanged` is a fault: two columns of the
// sub-block interleaver that are taken for each other.
export function stages(payload, transmission, { scrambling, exchanged = [0, 0] }) {
  const permutation = [...PERMUTATION], [one, two] = exchanged;
  [permutation[one], permutation[two]] = [permutation[two], permutation[one]];
  const cut = segmented(bitsOf(payload)), count = cut.length;
  const blocks = cut.map((it, r) => {
    const d = streams(it), buffer = circular(d, permutation), bits = pieceBits(r, count, transmission);
    const e = [0, 1, 2, 3].map((rv) => selected(buffer, count, { ...transmission, rv }, bits));
    return { c: it.bits, fill: it.fill, d, w: buffer.w, e };
  });
  const codeword = blocks.flatMap((it) => it.e[transmission.rv]);
  const { rnti, q, slot, cell } = scrambling, init = rnti * 2 ** 14 + q * 2 ** 13 + Math.floor(slot / 2) * 2 ** 9 + cell;
  const c = sequence(init, codeword.length), scrambled = codeword.map((it, i) => it ^ c[i]);
  return { blocks, codeword, init, scrambled, points: mapped(scrambled, transmission.qm) };
}
