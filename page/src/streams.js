"use strict";
// The coded streams of a code block (5.1.3.2), with NULL at the fillers of d0 and d1, and the tail bits.

function showStreams({ k, cells }, verdicts) {
  for (const s of [0, 1, 2]) {
    const at = (i) => cells[s * (k + 4) + i];
    const kind = (i) => (at(i) === NULL_CELL ? "null" : i >= k ? "tail" : "data");
    const cell = (i) => (at(i) === NULL_CELL ? "·" : at(i));
    showListing(`d${s}`, listing(k + 4, cell, withMarks(kind, verdicts[`d${s}`])));
  }
}
