"use strict";
// The constellation points of the scrambled codeword (36.211, 7.1.2 to 7.1.4).

const SCALES = { 2: 2, 4: 10, 6: 42 };
const POINTS_LISTED = 256;

function showPoints({ transmission, points, counts }) {
  const { g, qm } = transmission, count = g / qm, listed = Math.min(count, POINTS_LISTED), lines = [];
  for (let from = 0; from < listed; from += 6) {
    const words = Array.from({ length: Math.min(6, listed - from) }, (_, s) => {
      const [i, q] = points.subarray(2 * (from + s), 2 * (from + s) + 2);
      return `(${i}, ${q})`.padStart(9).replaceAll("-", "−");
    });
    lines.push(`<i data-n="${from}"></i>${words.join("")}`);
  }
  showListing("points", lines.join("\n"));
  element("points-told").innerHTML = `${many(count, "point")} of ${qm} bits each, as whole numbers: times 1/√${SCALES[qm]} they`
    + ` are those of the standard. N<sub>L</sub> plays no part yet: this is before the mapping to layers.`
    + (listed < count ? ` The first ${listed} are listed; the picture counts all.` : "");
  drawPoints(counts, qm);
}

// Each point as a disc, the larger the more often it is sent, with its count where there is room.
function drawPoints(counts, qm) {
  const reach = { 2: 1.8, 4: 4, 6: 8.2 }[qm], most = Math.max(...counts.map((it) => it[2]));
  const { draw, x, y } = axes("constellation", reach);
  draw.font = "11px system-ui, sans-serif";
  draw.textAlign = "center";
  for (const [i, q, times] of counts) {
    draw.fillStyle = colour("accent");
    draw.beginPath();
    draw.arc(x(i), y(q), 3 + 7 * Math.sqrt(times / most), 0, 2 * Math.PI);
    draw.fill();
    draw.fillStyle = colour("soft");
    if (qm < 6) draw.fillText(`${i}, ${q}: ${grouped(times)}`.replaceAll("-", "−"), x(i), y(q) + 24);
  }
  element("constellation").setAttribute("aria-label", `The constellation: ${counts.length} of ${2 ** qm} points are sent`
    + (qm < 6 ? `: ${counts.map(([i, q, n]) => `${i}, ${q} ${many(n, "time")}`).join("; ")}` : ""));
}
