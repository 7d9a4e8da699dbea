// Pictures of the page, to be looked at: node page/tests/pictures.mjs URL FOLDER. The first is docs/page.png.
import { openBrowser } from "./browser.mjs";
import { NULL, stages as ofStandard } from "./standard.mjs";

const [url, folder] = process.argv.slice(2);
const { page, close } = await openBrowser();
await page.open(url);
await page.look(900, false);
const [from, to] = await page.value(`["h-block", "h-selected"].map((it) => element(it).getBoundingClientRect().top + scrollY)`);
await page.picture(`${folder}/page.png`, { x: 0, y: Math.floor(from), width: 900, height: Math.floor(to - from), scale: 1 });
await page.picture(`${folder}/worked.png`);

// A codec with two columns of its sub-block interleaver exchanged.
const fault = ofStandard(Uint8Array.of(0, 1), { qm: 2, nl: 1, g: 132, rv: 0 },
  { scrambling: { rnti: 1, q: 0, slot: 0, cell: 0 }, exchanged: [1, 2] }).blocks[0];
const text = (cells) => cells.map((it) => (it === NULL ? "-" : it)).join("");
await page.set({ "other-c": text(fault.c), "other-d0": text(fault.d[0]), "other-d1": text(fault.d[1]),
  "other-d2": text(fault.d[2]), "other-w": text(fault.w) });
await page.value(`document.querySelectorAll("details").forEach((it) => (it.open = true))`);
await page.look(900, false);
await page.picture(`${folder}/compared.png`);
await page.open(url);
await page.click("larger");
await page.look(1180, true);
await page.picture(`${folder}/two-dark.png`);
await page.click("worked");
await page.set({ g: "131" });
await page.look(360, false);
await page.picture(`${folder}/refused-narrow.png`);
await close();
