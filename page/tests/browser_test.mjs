// The page in headless Chromium: node page/tests/browser_test.mjs URL
import { openBrowser, pause } from "./browser.mjs";
import { NULL, bytesOf, stages as ofStandard } from "./standard.mjs";
import { CONTRASTS } from "./contrast.mjs";
import { REFUSED } from "./refused.mjs";
import { hexOfBytes } from "./words.mjs";

const url = process.argv[2];
const { page, close } = await openBrowser();
let failed = 0;
function check(what, isGood, found = "") {
  if (!isGood) failed++;
  console.log(`${isGood ? "ok  " : "FAIL"} ${what}${isGood ? "" : `: ${found}`}`);
}
async function told(what, id, words) {
  const text = await page.text(id);
  check(what, text.includes(words), text);
}
const WORKED = "34 94 86 1B 12 04 70 C3 79 90 10 15 04 2D 49 88 90";
const SCRAMBLING = { rnti: 1, q: 0, slot: 0, cell: 0 };

async function workedCase() {
  await page.open(url);
  check("the worked case", (await page.text("word")) === WORKED, await page.text("word"));
  await told("its reception", "outcome", "Delivered after 1 of 4");
  await told("its plan", "plan", "240140–100");
  await told("its points", "points-told", "66 points");
  check("the work is a worker's", await page.value("work.inWorker"));
}

async function otherCases() {
  await page.click("larger");
  check("two code blocks", (await page.value(`element("block").options.length`)) === 2);
  await told("check bits of their own", "checks", "CRC24B");
  await page.set({ block: "1" });
  await told("the second has the payload's", "checks", "CRC24A");
  await told("and its bits of the codeword", "word-told", "Bits 8000 to 15999 are of code block 1");
  await page.set({ nir: "16000" });
  await told("a limited buffer", "ring", "123848000");
  check("has places beyond N_cb", (await page.value(`document.querySelectorAll("#buffer .beyond").length`)) > 0);
  await page.set({ nir: "0", noise: "127" });
  await told("too much noise", "outcome", "Not delivered");
  await page.set({ noise: "20", qm: "6", g: "15996" });
  await told("64QAM", "points-told", "2,666 points of 6 bits");
  await page.click("worked");
}

async function refusals() {
  for (const [field, text, words] of REFUSED) {
    const before = await page.value(`element("${field}").value`);
    await page.set({ [field]: text });
    await told(`${field} “${text.slice(0, 24)}”`, `${field}-note`, words);
    const is = await page.value(`{ const it = element("${field}"), note = element("${field}-note").getBoundingClientRect();
      it.getAttribute("aria-invalid") === "true" && it.getAttribute("aria-describedby") === "${field}-note"
        && note.top - it.getBoundingClientRect().bottom < 30; }`);
    check(`${field} is marked, with its words beside it`, is);
    await page.set({ [field]: before });
    check(`${field} is accepted again`, (await page.text(`${field}-note`)) === "");
  }
}

async function addresses() {
  await page.set({ payload: "CA FE 01", qm: "4", g: "240", rv: "2", rvs: "0 1", seed: "18446744073709551615", cell: "17" });
  const link = await page.value("location.href"), word = await page.text("word"), outcome = await page.text("outcome");
  await page.value(`element("copy-link").click()`);
  await page.until(`element("copied-link").textContent !== ""`);
  check("the address has the case", /#payload=CAFE01&qm=4&nl=1&g=240&rv=2&.*cell=17&.*rvs=0,1&.*seed=18446744073709551615/.test(link), link);
  await page.open(link);
  check("the address leads to the case", (await page.text("word")) === word && (await page.text("outcome")) === outcome);
  await page.value(`location.hash = "#payload=0001&g=132&qm=2&rv=0&nir=0&cell=0"`);
  await page.until(`element("word").textContent === "${WORKED}"`);
  check("so does one that is changed by hand", true);
  await page.open(`${url}#payload=zz&qm=3&g=132&g=2&colour=red&nl&cell=%E0&block=x`);
  for (const words of ["“qm” can't be 3", "“g” comes twice", "“colour” isn't known", "“nl” has no value", "“cell” is damaged", "“block” isn't"])
    await told(`an address with a fault: ${words}`, "link-note", words);
  await told("and its payload is refused in its field", "payload-note", "isn't a hex digit");
  await page.open(`${url}#payload=0001&block=7`);
  await told("a code block that isn't there", "block-note", "no code block 7");
  await page.set({ payload: "00 02" });
  check("is forgotten with the next case", (await page.text("block-note")) === "" && (await page.value("location.hash")).includes("block=0"));
}

// What an engineer pastes whose codec has two columns of the sub-block interleaver exchanged, or no fault.
function pasted(payload, transmission, exchanged) {
  const all = ofStandard(payload, transmission, { scrambling: SCRAMBLING, exchanged }), [block] = all.blocks;
  const text = (cells) => cells.map((it) => (it === NULL ? "-1" : it)).join(" ");
  return { "other-c": block.c.join(""), "other-d0": text(block.d[0]), "other-d1": text(block.d[1]), "other-d2": block.d[2].join(""),
    "other-w": text(block.w), "other-e0": block.e[0].join(""), "other-codeword": hexOfBytes(bytesOf(all.codeword)),
    "other-scrambled": hexOfBytes(bytesOf(all.scrambled)) };
}

async function anotherCodec() {
  await page.open(url);
  const payload = Uint8Array.of(0, 1), transmission = { qm: 2, nl: 1, g: 132, rv: 0 };
  const nothing = Object.fromEntries(Object.keys(pasted(payload, transmission, [0, 0])).map((it) => [it, ""]));
  await page.set(pasted(payload, transmission, [0, 0]));
  await told("a codec without a fault", "compared", "All that was given agrees");
  await page.set({ payload: "AB" });
  await page.set(pasted(Uint8Array.of(0xab), transmission, [0, 0]));
  await told("one with fillers", "compared", "All that was given agrees");
  const marked = pasted(Uint8Array.of(0xab), transmission, [0, 0])["other-w"].replaceAll("-1", "-").replaceAll(" ", "");
  await page.set({ "other-w": marked });
  await told("with a dash for each NULL", "verdict-w", "All 192 agree.");
  await page.set({ "other-w": marked.replaceAll("-", "") });
  await told("and without the NULLs", "verdict-w", "agree.");
  await page.set({ payload: "00 01" });
  const wrong = pasted(payload, transmission, [1, 2]);
  await page.set(wrong);
  await told("the first stage of a planted fault", "compared", "The first stage that differs is the circular buffer.");
  await told("the streams before it", "compared", "Before it agree: bits of the code block, stream d0, stream d1, stream d2.");
  await told("where to look", "compared", "Look at the sub-block interleaver (5.1.4.1.1); the bit collection");
  await told("how much differs", "verdict-w", "differ. The first is");
  const marks = await page.value(`["first", "differs"].map((it) => [...document.querySelectorAll("#buffer ." + it)]
    .filter((one) => getComputedStyle(one).backgroundColor === colour(it === "first" ? "wrong" : "wrong-ground")).length)`);
  check("they are marked", marks[0] === 1 && marks[1] > 0, marks);
  await page.set({ ...nothing, "other-c": wrong["other-c"], "other-codeword": wrong["other-codeword"] });
  await told("by the codeword alone", "compared", "The first stage that differs is the codeword.");
  await told("there is more to look at", "compared", "the internal interleaver (5.1.3.2.3)");
  await told("and to paste", "compared", "aren't compared yet");
  await page.set({ ...nothing, "other-codeword": "34 9x" });
  await told("what can't be read", "verdict-codeword", "neither a bit nor a hex digit");
  await page.set({ ...nothing, "other-codeword": WORKED.slice(0, 5) });
  await told("a codeword that is short", "verdict-codeword", "The other has 16, and here are 132.");
  await page.set({ ...nothing, "other-c": "0".repeat(64), "other-d2": "0".repeat(68) });
  await told("another K", "compared", "it takes another K, or not all was pasted. Look at the segmentation (5.1.2) first");
  await page.set(nothing);
}

// Works on the largest payload, and returns how often the page's own thread ticks while its reception is worked out.
async function ticksMeanwhile() {
  await page.value(`globalThis.ticks = globalThis.meanwhile = 0;
    globalThis.ticking = setInterval(() => ticks++, 10);
    const ask = work.ask;
    work.ask = async (question, asked) => {
      const before = ticks, told = await ask(question, asked);
      meanwhile = ticks - before;
      return told;
    };
    for (const [id, value] of Object.entries({ qm: 6, nl: 1, g: 999996, payload: "5A".repeat(18722) })) element(id).value = value;
    want("work");`);
  await page.until(`!isAtWork && element("word-told").textContent.startsWith("999,996")`);
  return page.value("clearInterval(ticking); meanwhile");
}

// By a worker the page answers its user meanwhile; and where there are no workers, it still does the work.
async function responsive() {
  const ticks = await ticksMeanwhile();
  check("the page ticks while 18,722 bytes are worked on", ticks > 5, ticks);
  console.log(`     ${ticks} ticks`);
  await page.ask("Page.addScriptToEvaluateOnNewDocument", { source: "delete globalThis.Worker" });
  await page.open(url);
  check("without workers the page does the work", (await page.text("word")) === WORKED && !(await page.value("work.inWorker")));
  const without = await ticksMeanwhile();
  check("and doesn't tick meanwhile", without < 3, without);
  await page.open(url);
}

// Every field, button and listing comes by the Tab key, in the order of the page.
async function byKeys() {
  const wanted = await page.value(`document.activeElement.blur(); window.scrollTo(0, 0);
    globalThis.inOrder = [...document.querySelectorAll("button, input, select, textarea, pre, summary, a")]
      .filter((it) => !it.disabled && it.checkVisibility()); inOrder.length`);
  await page.value(`getSelection().collapse(document.body, 0)`);
  const came = [];
  for (let i = 0; i < wanted; i++) {
    await page.ask("Input.dispatchKeyEvent", { type: "keyDown", key: "Tab", code: "Tab", windowsVirtualKeyCode: 9 });
    came.push(await page.value("inOrder.indexOf(document.activeElement)"));
  }
  check("all is reached by the Tab key, in its order", came.every((it, i) => it === i), came.join());
}

async function forEveryone() {
  for (const id of ["worked", "larger"]) {
    await page.click(id);
    await page.look(360, false);
    await page.value(`document.querySelectorAll("details").forEach((it) => (it.open = true))`);
    const [wide, room] = await page.value("[document.documentElement.scrollWidth, innerWidth]");
    check(`no scrolling sideways at 360 pixels: ${id}`, wide <= room, `${wide} of ${room}`);
  }
  const nameless = await page.value(`[...document.querySelectorAll("input, select, textarea, button")]
    .filter((it) => !(it.labels?.length || it.textContent.trim())).map((it) => it.id).join()`);
  check("each field has a label, each button a name", nameless === "", nameless);
  check("landmarks", await page.value(`["header", "nav", "main", "footer"].every((it) => document.querySelector(it))`));
  const foreign = await page.value(`performance.getEntriesByType("resource").map((it) => it.name)
    .filter((it) => !/^(data|blob):/.test(it) && !it.startsWith(new URL(".", location.href).href.split("#")[0])).join()`);
  check("nothing from elsewhere", foreign === "", foreign);
  for (const isDark of [false, true]) {
    await page.look(1180, isDark);
    const poor = (await page.value(CONTRASTS)).filter((it) => it[1] < 4.5);
    check(`contrast, ${isDark ? "dark" : "light"}`, !poor.length, JSON.stringify(poor));
  }
}

try {
  for (const part of [workedCase, otherCases, refusals, addresses, anotherCodec, responsive, byKeys, forEveryone]) await part();
} catch (error) {
  check("the test itself", false, error.stack);
}
await pause(100);
check("no fault of a script", page.faults().length === 0, page.faults()[0]);
await close();
process.exit(failed ? 1 : 0);
