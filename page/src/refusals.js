"use strict";
// What is refused, in words, and the field that it is told beside.

class Refused extends Error {
  constructor(field, text) {
    super(text);
    this.field = field;
  }
}

// The module's answers by their numbers in gomzelat.h: the field that each is about, and the words.
const ANSWERS = {
  1: ["payload", "Memory ran out."],
  2: ["payload", `A payload has 1 to ${grouped(MOST_BYTES)} bytes.`],
  3: ["rvs", "One to eight transmissions are sent."],
  4: ["qm", "Q_m is 2, 4 or 6."],
  5: ["nl", "N_L is 1 or 2."],
  6: ["g", `G is 1 to ${grouped(MOST_BITS)}, and a multiple of N_L × Q_m.`],
  7: ["rvs", "A redundancy version is 0 to 3."],
  8: ["nir", "N_IR is too small: shared by the code blocks, it has to hold the whole first stream of each (5.1.4.1)."],
  10: ["windows", "There are 1 to 64 windows."],
  11: ["limit", "There are 1 to 16 iterations."],
  17: ["amp", "The amplitude is 1 to 127."],
  18: ["noise", "The noise is 0 to 127."],
  20: ["rnti", "n_RNTI, q, n_s or the cell is out of range."],
};

const refusalOf = (number) => new Refused(...(ANSWERS[number] ?? ["payload", `The module refused it, by its answer ${number}.`]));

// Writes beside each of these fields what is refused of it, or nothing, and marks it.
function tellRefusals(fields, refusals) {
  for (const field of fields) {
    const refused = refusals.find((it) => it.field === field);
    const note = element(`${field}-note`), text = refused ? refused.message : "";
    if (note.textContent !== text) note.textContent = text;
    element(field).setAttribute("aria-invalid", String(Boolean(refused)));
  }
}
