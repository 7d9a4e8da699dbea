"use strict";
// Listings of cells, and tables of a row.

const LINE = 64;

// Writes cells by 64 a line, with the index of each line's first before it. kind(i) is a class, and mark(i) what stands
// before cell i. Indices are drawn by the style sheet alone, so that what is copied out of a listing is cells.
function listing(count, cell, kind, mark = () => "") {
  const lines = [];
  for (let from = 0; from < count; from += LINE) {
    let line = `<i data-n="${from}"></i>`, open = null;
    for (let i = from; i < Math.min(from + LINE, count); i++) {
      const now = kind(i), before = mark(i), gap = i > from && i % 8 === 0 ? " " : "";
      if (open !== null && (now !== open || before)) {
        line += "</span>";
        open = null;
      }
      line += gap + before;
      if (open === null) line += `<span class="${now}">`;
      open = now;
      line += cell(i);
    }
    lines.push(`${line}</span>`);
  }
  return lines.join("\n");
}

// The class of cell i, with marks where another codec's differs.
function withMarks(kind, verdict) {
  if (!verdict?.flags) return kind;
  return (i) => kind(i) + (i === verdict.first ? " first" : verdict.flags[i] ? " differs" : "");
}

function showListing(id, html) {
  const box = element(id);
  box.innerHTML = html;
  const first = box.querySelector(".first");
  if (first) box.scrollTop = Math.max(0, first.offsetTop - box.offsetTop - box.clientHeight / 3);
}

// Bytes in hex, 32 a line. Of many only some are shown, around the first that differs.
const BYTES_SHOWN = 2048;
function showBytes(id, bytes, verdict) {
  const firstByte = verdict?.first >= 0 ? verdict.first >> 3 : -1;
  const from = firstByte < BYTES_SHOWN ? 0 : firstByte - (firstByte % 32) - 32;
  const end = Math.min(bytes.length, from + BYTES_SHOWN), lines = [];
  const wrong = (i) => verdict?.flags?.subarray(8 * i, 8 * i + 8).some((it) => it);
  for (let at = from; at < end; at += 32) {
    const words = Array.from(bytes.subarray(at, Math.min(at + 32, end)), (byte, i) => {
      const text = hexOf([byte]), kind = at + i === firstByte ? "first" : wrong(at + i) ? "differs" : "";
      return kind ? `<span class="${kind}">${text}</span>` : text;
    });
    lines.push(`<i data-n="${at}"></i>${words.join(" ")}`);
  }
  showListing(id, lines.join("\n"));
  return end - from < bytes.length ? ` Of ${grouped(bytes.length)} bytes, those from ${from} to ${end - 1} are shown;`
    + " the button copies all." : "";
}

function showTable(id, rows) {
  const heads = rows.map((it) => `<th scope="col">${it[0]}</th>`), values = rows.map((it) => `<td>${it[1]}</td>`);
  element(id).innerHTML = `<thead><tr>${heads.join("")}</tr></thead><tbody><tr>${values.join("")}</tr></tbody>`;
}
