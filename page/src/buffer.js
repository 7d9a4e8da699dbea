"use strict";
// The circular buffer of a code block, which places of it are sent, and the bits that each redundancy version selects
// (5.1.4.1).

// Returns the cells of the circular buffer: 0, 1, or 2 at a NULL.
function bufferCells({ k, cells, spots }) {
  return Uint8Array.from(spots, (it) => (it === NULL_SPOT ? NULL_CELL : cells[(it >>> 16) * (k + 4) + (it & 65535)]));
}

// How often each place is sent: from k0 on, round and round, over the places that hold a bit. The module tells k0 and how
// many bits; the walk is this page's own, so its bits are compared with those that the module selects.
function walkOf(piece, held, selected) {
  const times = new Uint32Array(piece.places);
  let isSame = true;
  for (let place = piece.start % piece.places, done = 0; done < piece.bits; place = (place + 1) % piece.places) {
    if (held[place] === NULL_CELL) continue;
    times[place]++;
    isSame &&= held[place] === selected[done++];
  }
  return { times, isSame };
}

function showBuffer(stages, verdicts) {
  const { pieces, spots, selected, transmission } = stages, piece = pieces[transmission.rv], held = bufferCells(stages);
  const { times, isSame } = walkOf(piece, held, selected[transmission.rv]);
  const starts = pieces.map((it) => it.start % it.places);
  showTable("ring", [["K<sub>w</sub>", piece.buffer], ["N<sub>cb</sub>", piece.places],
    ...starts.map((at, rv) => [`k<sub>0</sub>, rv ${rv}`, at]), ["E, bits sent", piece.bits]]);
  const kind = (at) => (at >= piece.places ? "beyond" : held[at] === NULL_CELL ? "null"
    : times[at] > 1 ? "again" : times[at] ? "sent" : "data");
  const mark = (at) => starts.map((it, rv) => (it === at ? `<b class="k0" data-n="${rv}"></b>` : "")).join("");
  const cell = (at) => (held[at] === NULL_CELL ? "·" : held[at]);
  showListing("buffer", listing(spots.length, cell, withMarks(kind, verdicts.w), mark));
  drawMap(spots, times, starts, piece.places);
  element("walk").textContent = isSame ? "" : "This page marks other places than were sent: its own fault.";
}

function drawMap(spots, times, starts, places) {
  const [draw, width] = cleared("map"), count = spots.length, x = (at) => (at / count) * width;
  const paint = { none: colour("line"), d0: colour("accent"), other: colour("one"), sent: colour("good"), k0: colour("wrong") };
  const step = Math.max(width / count, 1);
  for (let at = 0; at < count; at++) {
    draw.globalAlpha = at < places ? 1 : 0.3;
    draw.fillStyle = spots[at] === NULL_SPOT ? paint.none : spots[at] >>> 16 ? paint.other : paint.d0;
    draw.fillRect(x(at), 26, step, 14);
    if (!times[at]) continue;
    draw.fillStyle = paint.sent;
    draw.fillRect(x(at), 44, step, Math.min(4 * times[at], 16));
  }
  draw.globalAlpha = 1;
  draw.fillStyle = paint.k0;
  draw.font = "12px system-ui, sans-serif";
  starts.forEach((at, rv) => {
    draw.fillRect(x(at), 16, 1.5, 26);
    draw.fillText(`rv ${rv}`, Math.min(x(at) + 4, width - 30), 14);
  });
}

// Of very many selected bits the first are shown, around the first that differs.
const SELECTED_SHOWN = 16384;
function showSelected({ transmission, pieces, selected }, verdicts) {
  const { rv } = transmission, verdict = verdicts[`e${rv}`], bits = selected[rv], first = verdict?.first ?? -1;
  const from = first < SELECTED_SHOWN ? 0 : first - (first % LINE) - LINE;
  const shown = bits.subarray(from, from + SELECTED_SHOWN);
  const moved = verdict?.flags && { first: first - from, flags: verdict.flags.subarray(from) };
  const html = listing(shown.length, (i) => shown[i], withMarks(() => "data", moved));
  element("selected-told").textContent = `Redundancy version ${rv} selects E = ${grouped(pieces[rv].bits)} bits, from place `
    + `${pieces[rv].start % pieces[rv].places} of the circular buffer on.`
    + (shown.length < bits.length ? ` Those from ${from} to ${from + shown.length - 1} are shown, counted from ${from}.` : "");
  showListing("selected", html);
}
