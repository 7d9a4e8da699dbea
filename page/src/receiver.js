"use strict";
// Noise, soft values, and what a receiver makes of them.

function showReception(told) {
  const { delivered, same, transmissions, iterations, count } = told;
  const head = delivered
    ? `<b class="${same ? "good" : "bad"}">Delivered${same ? "" : ", but not what was sent"}</b> after ${transmissions} of ${many(count, "transmission")}`
    : `<b class="bad">Not delivered</b> by ${many(count, "transmission")}`;
  element("outcome").innerHTML = `${head}, with ${many(iterations, "iteration")} in the last decoding of all code blocks together. `
    + `Of the first transmission's ${grouped(told.g)} soft values, ${grouped(told.errors)} have the wrong sign.`;
  drawReceived(told);
  drawValues(told);
  drawSpread(told);
}

function drawReceived({ received, missed, amp, qm }) {
  const far = received.reduce((most, it) => Math.max(most, Math.abs(it)), 0);
  const { draw, x, y } = axes("cloud", 1.05 * Math.max(far, amp));
  const size = missed.length > 800 ? 2 : 3.5, paint = [colour("soft"), colour("wrong")];
  missed.forEach((it, s) => {
    draw.fillStyle = paint[it];
    draw.fillRect(x(received[2 * s]) - size / 2, y(received[2 * s + 1]) - size / 2, size, size);
  });
  draw.strokeStyle = colour("accent");
  const levels = Array.from({ length: 2 ** (qm / 2) }, (_, n) => amp * (2 * n + 1 - 2 ** (qm / 2)));
  for (const i of levels) for (const q of levels) draw.strokeRect(x(i) - 4, y(q) - 4, 8, 8);
}

function drawValues({ values, wrong }) {
  const [draw, width, height] = cleared("softs"), count = values.length, size = count > 800 ? 2 : 3;
  const paint = [colour("soft"), colour("wrong")];
  draw.fillStyle = colour("line");
  draw.fillRect(0, height / 2, width, 1);
  values.forEach((it, i) => {
    draw.fillStyle = paint[wrong[i]];
    draw.fillRect((i / count) * (width - size), height / 2 - (it / 127) * (height / 2 - 6) - size / 2, size, size);
  });
}

function drawSpread({ spread }) {
  const [draw, width, height] = cleared("spread"), step = width / 255;
  const most = Math.max(...spread[0], ...spread[1]);
  draw.fillStyle = colour("line");
  draw.fillRect(width / 2, 0, 1, height);
  draw.globalAlpha = 0.75;
  [colour("zero"), colour("one")].forEach((paint, bit) => {
    draw.fillStyle = paint;
    spread[bit].forEach((times, v) => {
      const tall = (times / most) * (height - 6);
      draw.fillRect(v * step, height - tall, Math.max(step - 0.5, 1), tall);
    });
  });
}
