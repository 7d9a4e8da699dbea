"use strict";
// The fields of the page: what each takes, and what is read from it.

// The fields of what is sent, and those of the channel and the receiver, by their elements. An address has them too.
const SENT_FIELDS = ["payload", "qm", "nl", "g", "rv", "nir", "rnti", "q", "slot", "cell"];
const RECEIVED_FIELDS = ["rvs", "amp", "noise", "seed", "windows", "limit"];

// What a whole number is called, and from where to where it goes. The module looks at these once more, and at the rest.
const RANGES = {
  qm: ["Q_m", 2, 6],
  nl: ["N_L", 1, 2],
  g: ["G", 1, MOST_BITS],
  rv: ["The redundancy version", 0, 3],
  nir: ["N_IR", 0, 4294967295],
  rnti: ["n_RNTI", 0, 65535],
  q: ["q", 0, 1],
  slot: ["n_s", 0, 19],
  cell: ["The cell's identity", 0, 503],
  amp: ["The amplitude", 1, 127],
  noise: ["The noise", 0, 127],
  windows: ["The greatest number of windows", 1, 64],
  limit: ["The greatest number of iterations", 1, 16],
};

function numberIn(field) {
  const [what, low, high] = RANGES[field], text = element(field).value.replace(/[ ,_]/g, "");
  if (!/^\d+$/.test(text) || Number(text) < low || Number(text) > high)
    throw new Refused(field, `${what} is a whole number from ${low} to ${grouped(high)}.`);
  return Number(text);
}

// A seed has 64 bits, more than a number of JavaScript holds.
function seedIn() {
  const text = element("seed").value.trim();
  if (!/^\d{1,20}$/.test(text) || BigInt(text) >> 64n)
    throw new Refused("seed", "The seed is a whole number from 0 to 18446744073709551615.");
  return BigInt(text);
}

function payloadIn() {
  const text = element("payload").value.replace(/0x|[\s,:_-]/gi, ""), odd = text.search(/[^0-9a-f]/i);
  if (odd >= 0) throw new Refused("payload", `“${text[odd]}” isn't a hex digit (digit ${odd + 1}).`);
  if (text.length % 2)
    throw new Refused("payload", `A byte has two digits, and there are ${grouped(text.length)}: one is missing.`);
  if (text.length > 2 * MOST_BYTES || !text) throw refusalOf(2);
  return Uint8Array.from(text.match(/../g), (it) => parseInt(it, 16));
}

function versionsIn() {
  const words = element("rvs").value.split(/[\s,]+/).filter((it) => it);
  if (words.some((it) => !/^[0-3]$/.test(it))) throw refusalOf(7);
  if (words.length < 1 || words.length > 8) throw refusalOf(3);
  return words.map(Number);
}

const READERS = { payload: payloadIn, seed: seedIn, rvs: versionsIn };

// Returns the values of fields by their names, and all that is refused of them.
function readFields(fields) {
  const values = {}, refusals = [];
  for (const field of fields) {
    try {
      values[field] = (READERS[field] ?? numberIn)(field);
    } catch (error) {
      if (!(error instanceof Refused)) throw error;
      refusals.push(error);
    }
  }
  return { values, refusals };
}
