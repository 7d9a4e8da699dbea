// Compares the module with what native_cases.py prints of the native library, on standard input.
import { createHash } from "node:crypto";
import { createInterface } from "node:readline";
import { calls } from "./module.mjs";

const sha = (it) => createHash("sha256").update(new Uint8Array(it.buffer, it.byteOffset, it.byteLength)).digest("hex");

function ofStages(payload, t, { nIr, block }) {
  const length = payload.length, plan = calls.plan(length), piece = calls.piece(length, block, t, nIr);
  return {
    plan: Object.values(plan), piece: Object.values(piece),
    code_block: sha(calls.codeBlock(payload, block, piece.k)),
    streams: sha(calls.streams(payload, block, 3 * (piece.k + 4))),
    spots: sha(calls.spots(length, block, piece.buffer)),
    select: sha(calls.select(payload, block, t, nIr, piece.bits)),
  };
}

function ofSignals(word, { qm, g }, amp, by) {
  const scrambled = calls.scramble(word, g, by), points = calls.map(scrambled, g, qm);
  const values = calls.demap(points.map((it) => amp * it), qm, amp);
  return { init: calls.init(by), scramble: sha(scrambled), map: sha(points), demap: sha(values),
    descramble: sha(calls.descramble(values, by)) };
}

function answers(asked) {
  const payload = Buffer.from(asked.payload, "hex"), { transmissions, nIr, channel, scrambling } = asked;
  const last = transmissions.at(-1);
  try {
    const words = transmissions.map((it) => calls.codeword(payload, it, nIr));
    const softs = words.map((it, i) => calls.noisy(it, transmissions[i].g, channel, i));
    const values = new Int8Array(Buffer.concat(softs.map((it) => Buffer.from(it.buffer))));
    const told = calls.receive(payload.length, transmissions, asked.receiver, values);
    const { delivered, iterations } = told, bytes = delivered ? told.payload : new Uint8Array();
    return { codewords: words.map(sha), noisy: softs.map(sha),
      receive: [delivered, told.transmissions, iterations, sha(bytes)],
      ...ofStages(payload, last, asked), ...ofSignals(words.at(-1), last, channel.amp, scrambling) };
  } catch (error) {
    if (!error.refused) throw error;
    return { refused: error.refused };
  }
}

const ends = {};
let count = 0, differing = 0;
for await (const line of createInterface({ input: process.stdin })) {
  const { asked, answers: wanted } = JSON.parse(line), found = answers(asked);
  const end = found.refused ? `refused with ${found.refused}` : found.receive[0] ? "delivered" : "not delivered";
  ends[end] = (ends[end] ?? 0) + 1;
  count++;
  const names = [...new Set([...Object.keys(wanted), ...Object.keys(found)])];
  const other = names.filter((it) => JSON.stringify(found[it]) !== JSON.stringify(wanted[it]));
  if (!other.length) continue;
  differing++;
  console.log(`${other.join(", ")} differ: ${JSON.stringify({ ...asked, payload: asked.payload.length / 2 })}`);
}
console.log(`${count} random cases as the native library, ${differing} differ: ${JSON.stringify(ends)}`);
process.exit(count < 1 || differing ? 1 : 0);
