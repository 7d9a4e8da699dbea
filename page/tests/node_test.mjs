// The module under Node: the worked case, what is refused, every stage against the codec of the standard, and a reception.
import { hexOfBytes } from "./words.mjs";
import { answerTo, bytes, calls, check, draw, end, module, noiseOf, same } from "./module.mjs";
import { bytesOf, stages as ofStandard } from "./standard.mjs";

same("imports", WebAssembly.Module.imports(module).length, 0);
console.log(`${bytes.length} bytes`);

const scrambling = { rnti: 1, q: 0, slot: 0, cell: 0 }, worked = { qm: 2, nl: 1, g: 132, rv: 0 }, payload = Uint8Array.of(0, 1);
const ask = (changed) => answerTo(calls, "stages",
  { payload, transmission: worked, nIr: 0, block: 0, scrambling, ...changed });
same("the worked case", hexOfBytes(ask({}).done.codeword), "34 94 86 1B 12 04 70 C3 79 90 10 15 04 2D 49 88 90");

const refused = (what, changed, number) => same(what, ask(changed).refused, number);
refused("no payload", { payload: new Uint8Array() }, 2);
refused("18,723 bytes", { payload: new Uint8Array(18723) }, 2);
refused("Q_m 3", { transmission: { ...worked, qm: 3 } }, 4);
refused("N_L 3", { transmission: { ...worked, nl: 3 } }, 5);
refused("G 131", { transmission: { ...worked, g: 131 } }, 6);
refused("rv 4", { transmission: { ...worked, rv: 4 } }, 7);
refused("N_IR 63", { nIr: 63 }, 8);
refused("cell 504", { scrambling: { ...scrambling, cell: 504 } }, 20);

// Each stage is that of the codec of the standard.
function differences(length, transmission, nIr) {
  const some = Uint8Array.from({ length }, () => draw(256));
  const by = { rnti: draw(65536), q: draw(2), slot: draw(20), cell: draw(504) };
  const wanted = ofStandard(some, { ...transmission, nIr }, { scrambling: by }), found = [];
  const differ = (what, ours, theirs) => String(ours) === String(theirs) || found.push(what);
  wanted.blocks.forEach((it, r) => {
    const told = ask({ payload: some, transmission, nIr, block: r, scrambling: by }).done, { k, cells, spots } = told;
    differ(`bits ${r}`, told.bits, it.c);
    differ(`streams ${r}`, cells, it.d.flat());
    const held = Array.from(spots, (at) => (at === 0xffffffff ? 2 : cells[(at >>> 16) * (k + 4) + (at & 65535)]));
    differ(`buffer ${r}`, held, it.w);
    it.e.forEach((e, rv) => differ(`selected ${r} ${rv}`, told.selected[rv], e));
    if (r > 0) return;
    differ("codeword", told.codeword, bytesOf(wanted.codeword));
    differ("c_init", told.init, wanted.init);
    differ("scrambled", told.scrambled, bytesOf(wanted.scrambled));
    differ("points", told.points, wanted.points.flat().slice(0, 1024));
  });
  return found;
}
for (const [length, nIr] of [[1, 0], [2, 0], [2, 100], [61, 0], [61, 1200], [125, 0], [765, 0], [765, 9000], [1015, 0], [1015, 20000]]) {
  const found = [0, 1, 2, 3].flatMap((rv) => {
    const qm = 2 * (1 + draw(3)), nl = 1 + draw(2);
    return differences(length, { qm, nl, g: qm * nl * (20 + draw(500)), rv }, nIr);
  });
  check(`the stages of ${length} bytes, N_IR ${nIr}, are the standard's`, !found.length, found);
}

// With Q_m = 2 a point's coordinates are received as its two bits by themselves.
const channel = { amp: 20, noise: 20, seed: 18446744073709551615n }, word = calls.codeword(payload, worked, 0);
const terms = noiseOf(calls, 132, channel, 3), points = calls.map(word, 132, 2).map((it, i) => 20 * it + terms[i]);
same("noise on points and on bits", calls.demap(points, 2, 20), calls.noisy(word, 132, channel, 3));
const told = answerTo(calls, "reception", { payload, transmissions: [worked, { ...worked, rv: 2 }], scrambling, channel,
  receiver: { nIr: 0, windows: 8, limit: 8 } }).done;
same("received", [told.delivered, told.same], [true, true]);
end();
