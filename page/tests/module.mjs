// The module under Node, with the page's own scripts for it; and checks that are told by a line each.
import { readFileSync } from "node:fs";
import { runInThisContext } from "node:vm";

const out = new URL("../out/", import.meta.url);
const read = (name) => readFileSync(new URL(name, out), "utf8");

// The scripts declare functions, which become global; of the module's script the constant is asked for.
for (const it of ["calls", "work"]) runInThisContext(read(`src/${it}.js`), { filename: `${it}.js` });
export const bytes = Buffer.from(runInThisContext(`${read("gomzelat_wasm.js")};GOMZELAT_WASM`), "base64");
export const module = new WebAssembly.Module(bytes);
export const calls = globalThis.callsOf(new WebAssembly.Instance(module, {}).exports);
export const { answerTo, noiseOf } = globalThis;

let failed = 0;
export function check(what, isGood, found = "") {
  if (!isGood) failed++;
  console.log(`${isGood ? "ok  " : "FAIL"} ${what}${isGood ? "" : `: ${found}`}`);
}
export const same = (what, found, wanted) => check(what, String(found) === String(wanted), `${found}, wanted ${wanted}`);
export const end = () => process.exit(failed ? 1 : 0);

// Numbers from 0 to below n, the same in each run.
let state = 1;
export const draw = (n) => (state = (state * 48271) % 2147483647) % n;
