// Compares the page's receiver with the program, in random cases: soft values after encode, scramble, points and scramble,
// and what decode comes to. node .. program_test.mjs PROGRAM
import { spawnSync } from "node:child_process";
import { answerTo, calls, check, draw, end } from "./module.mjs";

const program = process.argv[2];
function run(words, input) {
  const { status, stdout, stderr } = spawnSync(program, words, { input, maxBuffer: 2 ** 26 });
  return { status, out: stdout, said: stderr.toString() };
}

function drawn() {
  const payload = Uint8Array.from({ length: 1 + draw(draw(2) ? 40 : 1500) }, () => draw(256));
  const qm = 2 * (1 + draw(3)), nl = 1 + draw(2), rate = 0.3 + draw(100) / 150;
  const g = qm * nl * Math.ceil((8 * payload.length + 24) / rate / (qm * nl));
  return {
    payload, transmissions: [0, 1 + draw(3), draw(4)].slice(0, 1 + draw(3)).map((rv) => ({ qm, nl, g, rv })),
    scrambling: { rnti: draw(65536), q: draw(2), slot: draw(20), cell: draw(504) },
    // Terms of noise are read whole up to 73.
    channel: { amp: 10 + draw(40), noise: draw(74), seed: draw(1000000) }, receiver: { nIr: 0, windows: 1 + draw(64), limit: 1 + draw(8) },
  };
}

// What the program comes to: the soft values that it decodes, and the line of its report on the block.
function byProgram({ payload, transmissions, scrambling, channel, receiver }) {
  const [{ qm, nl, g }] = transmissions, words = (all) => Object.entries(all).map(([name, value]) => `${name}=${value}`);
  const rv = transmissions.map((it) => it.rv).join(), scramble = ["scramble", ...words(scrambling)];
  const steps = [["encode", ...words({ tb: payload.length, g, qm, nl, rv })], scramble, ["points", ...words(channel)], scramble];
  const soft = steps.reduce((input, it) => run(it, input).out, payload);
  const told = run(["decode", `windows=${receiver.windows}`, `limit=${receiver.limit}`], soft);
  const at = 18 + transmissions.length + 4;
  return { values: soft.subarray(at, at + g * transmissions.length).toString("hex"), line: told.said.split("\n")[0] };
}

let delivered = 0;
const differing = [];
for (let n = 0; n < 40; n++) {
  const asked = drawn(), wanted = byProgram(asked), parts = asked.transmissions.map((it, j) => transmitted(calls, asked, it, j));
  const values = parts.map((it) => Buffer.from(it.values.buffer).toString("hex")).join("");
  const told = answerTo(calls, "reception", asked).done, effort = `transmissions ${told.transmissions} iterations ${told.iterations}`;
  const line = told.delivered ? `block 0 delivered bytes ${asked.payload.length} ${effort}` : `block 0 failed ${effort}`;
  delivered += told.delivered;
  if (values !== wanted.values || line !== wanted.line) differing.push(`${line}, and there ${wanted.line}`);
}
check(`40 random cases as the program, ${delivered} delivered`, !differing.length && delivered > 5 && delivered < 40, differing.join("; "));
end();
