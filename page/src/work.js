"use strict";
// What is worked out of what is asked, without the page: in a worker, or in Node. Each function names nothing outside of
// itself but the others here, since a worker is made of their texts.

// All stages of a transport block in one transmission, and of one of its code blocks.
function stagesOf(calls, asked) {
  const { payload, transmission, nIr, scrambling } = asked, length = payload.length;
  const plan = calls.plan(length);
  const r = Math.min(asked.block, plan.c - 1), k = r < plan.cMinus ? plan.kMinus : plan.kPlus;
  const codeword = calls.codeword(payload, transmission, nIr);
  const versions = [0, 1, 2, 3].map((rv) => ({ ...transmission, rv }));
  const pieces = versions.map((it) => calls.piece(length, r, it, nIr));
  const scrambled = calls.scramble(codeword, transmission.g, scrambling);
  const points = calls.map(scrambled, transmission.g, transmission.qm);
  let before = 0;
  for (let earlier = 0; earlier < r; earlier++) before += calls.piece(length, earlier, transmission, nIr).bits;
  return {
    length, transmission, scrambling, plan, r, k, codeword, pieces, scrambled, before,
    bits: calls.codeBlock(payload, r, k),
    cells: calls.streams(payload, r, 3 * (k + 4)),
    spots: calls.spots(length, r, pieces[0].buffer),
    selected: versions.map((it, rv) => calls.select(payload, r, it, nIr, pieces[rv].bits)),
    init: calls.init(scrambling),
    points: points.slice(0, 1024),
    counts: countsOf(points),
  };
}

// How often each point is sent, as [i, q, times].
function countsOf(points) {
  const counts = new Map();
  for (let at = 0; at < points.length; at += 2) {
    const key = 16 * (points[at] + 7) + points[at + 1] + 7;
    counts.set(key, (counts.get(key) ?? 0) + 1);
  }
  return [...counts].map(([key, times]) => [(key >> 4) - 7, (key & 15) - 7, times]);
}

// The terms of noise of a transmission. The library tells them added to a bit's amplitude and clamped to -127 to 127:
// those up to 0 are read off bits 0, the others off bits 1, both with amplitude 127. Beyond 254 they stay clamped.
function noiseOf(calls, count, channel, number) {
  const loud = { ...channel, amp: 127 }, bits = (byte) => new Uint8Array(Math.ceil(count / 8)).fill(byte);
  const below = calls.noisy(bits(0), count, loud, number), above = calls.noisy(bits(255), count, loud, number);
  return Int32Array.from(below, (it, i) => (it < 127 ? it - 127 : above[i] + 127));
}

// A transmission through the channel of the program's command `points`: scrambled, sent as points, received with a term
// of noise for each coordinate, read, and turned back.
function transmitted(calls, asked, transmission, number) {
  const { payload, receiver, channel } = asked, { g, qm } = transmission;
  const scrambling = { ...asked.scrambling, slot: (asked.scrambling.slot + 2 * number) % 20 };
  const codeword = calls.codeword(payload, transmission, receiver.nIr);
  const points = calls.map(calls.scramble(codeword, g, scrambling), g, qm);
  const terms = noiseOf(calls, points.length, channel, number);
  const received = points.map((it, i) => channel.amp * it + terms[i]);
  const values = calls.descramble(calls.demap(received, qm, channel.amp), scrambling);
  return { codeword, received, values };
}

// What a receiver makes of all transmissions, and what the first of them came to.
function receptionOf(calls, asked) {
  const { payload, transmissions, receiver, channel } = asked, shown = 4000;
  const parts = transmissions.map((it, number) => transmitted(calls, asked, it, number));
  const all = new Int8Array(parts.reduce((n, it) => n + it.values.length, 0));
  parts.reduce((at, it) => (all.set(it.values, at), at + it.values.length), 0);
  const outcome = calls.receive(payload.length, transmissions, receiver, all);

  const [{ codeword, received, values }] = parts, { g, qm } = transmissions[0];
  const bits = Uint8Array.from(values, (_, i) => (codeword[i >> 3] >> (7 - (i & 7))) & 1);
  const wrong = values.map((it, i) => ((it < 0) === (bits[i] === 1) ? 0 : 1));
  const spread = [new Uint32Array(255), new Uint32Array(255)];
  values.forEach((it, i) => spread[bits[i]][it + 127]++);
  const symbols = Math.min(g / qm, shown);
  return {
    ...outcome,
    payload: undefined,
    same: outcome.payload.every((it, i) => it === payload[i]),
    count: transmissions.length, g, qm, amp: channel.amp,
    values: values.slice(0, shown), wrong: wrong.slice(0, shown), spread,
    errors: wrong.reduce((n, it) => n + it, 0),
    received: received.slice(0, 2 * symbols),
    missed: Uint8Array.from({ length: symbols }, (_, s) => Math.max(...wrong.subarray(s * qm, (s + 1) * qm))),
  };
}

// Answers a question as { done }, { refused: NUMBER } or { failed: TEXT }.
function answerTo(calls, question, asked) {
  try {
    return { done: question === "stages" ? stagesOf(calls, asked) : receptionOf(calls, asked) };
  } catch (error) {
    return error.refused ? { refused: error.refused } : { failed: String(error.stack ?? error) };
  }
}

async function moduleOf(bytes) {
  return callsOf((await WebAssembly.instantiate(bytes, {})).instance.exports);
}

// The worker's side: first the module's bytes, then questions, answered in their order.
function serve() {
  let calls = null;
  self.onmessage = async ({ data }) => {
    if (data.bytes) calls = moduleOf(data.bytes);
    try {
      const ready = await calls;
      postMessage(data.bytes ? { ready: true } : answerTo(ready, data.question, data.asked));
    } catch (error) {
      postMessage({ failed: error.message });
    }
  };
}
