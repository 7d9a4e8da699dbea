"use strict";
// Comparing stage by stage with another codec: the fields, what differs in each, and which stage is the first.

const bitsOf = (bytes, count) => Uint8Array.from({ length: count }, (_, i) => bitAt(bytes, i));
const streamOf = (s, n) => s.cells.subarray(n * (s.k + 4), (n + 1) * (s.k + 4));
const selection = (rv) => ({
  id: `e${rv}`, name: `selected bits of redundancy version ${rv}`, cells: (s) => s.selected[rv], from: ["w"],
  steps: ["N_cb and k0", "the bit selection (5.1.4.1.2)"],
});

// The stages in their order: what they are called, our cells, the stages that each is made of, and the steps between.
const STAGES = [
  { id: "c", name: "bits of the code block", cells: (s) => s.bits, fillers: (s) => (s.r ? 0 : s.plan.f), from: [],
    steps: ["the check bits (5.1.1)", "the segmentation (5.1.2)"] },
  { id: "d0", name: "stream d0", cells: (s) => streamOf(s, 0), from: ["c"],
    steps: ["the systematic stream and its tail bits (5.1.3.2)"] },
  { id: "d1", name: "stream d1", cells: (s) => streamOf(s, 1), from: ["c"],
    steps: ["the first constituent coder and its tail bits (5.1.3.2.1, 5.1.3.2.2)"] },
  { id: "d2", name: "stream d2", cells: (s) => streamOf(s, 2), from: ["c"],
    steps: ["the internal interleaver (5.1.3.2.3)", "the second constituent coder and its tail bits (5.1.3.2.1, 5.1.3.2.2)"] },
  { id: "w", name: "circular buffer", cells: bufferCells, from: ["d0", "d1", "d2"], where: placeName,
    steps: ["the sub-block interleaver (5.1.4.1.1)", "the bit collection (5.1.4.1.2)"] },
  ...[0, 1, 2, 3].map(selection),
  { id: "codeword", name: "codeword", cells: (s) => bitsOf(s.codeword, s.transmission.g),
    from: (s) => [`e${s.transmission.rv}`], steps: ["E of each code block (5.1.4.1.2)", "the concatenation (5.1.5)"] },
  { id: "scrambled", name: "scrambled bits", cells: (s) => bitsOf(s.scrambled, s.transmission.g), from: ["codeword"],
    steps: ["c_init (36.211, 6.3.1)", "the sequence c (36.211, 7.2)"] },
];
const nameOf = (id) => STAGES.find((it) => it.id === id).name;

// What stands at a place of the circular buffer.
function placeName({ spots }, at) {
  const spot = spots[at], row = at < spots.length / 3 ? "v0" : "v1 and v2, by turns";
  return `${row}; ${spot === NULL_SPOT ? "a NULL" : `bit ${spot & 65535} of d${spot >>> 16}`} belongs there`;
}

// Puts a field for each stage where the page has room for it.
function makeOtherFields() {
  for (const box of document.querySelectorAll("[data-other]")) {
    const ids = box.dataset.other.split(" ");
    box.innerHTML = `<details><summary>Compare with another codec</summary>${ids.map((id) => `
      <label for="other-${id}">Its ${nameOf(id)}, in bits or hex</label>
      <textarea id="other-${id}" rows="2" spellcheck="false" autocomplete="off" aria-describedby="verdict-${id}"></textarea>
      <p class="verdict" id="verdict-${id}"></p>`).join("")}</details>`;
  }
}

function verdictsOf(stages) {
  return Object.fromEntries(STAGES.map((it) => {
    const text = element(`other-${it.id}`).value;
    return [it.id, text.trim() ? comparison(it.cells(stages), text, it.fillers?.(stages)) : { state: "none" }];
  }));
}

function verdictText(stage, stages, it) {
  if (it.state === "none") return "";
  if (it.state === "unread") return it.text;
  const size = it.isShort ? `The other has ${grouped(it.theirCount)}, and here are ${grouped(it.count)}. ` : "";
  if (!it.differing) return size ? `${size}What both have agrees.` : `All ${grouped(it.compared)} agree.`;
  const cell = (n) => (n === NULL_CELL ? "NULL" : n), where = stage.where ? ` (${stage.where(stages, it.first)})` : "";
  return `${size}${grouped(it.differing)} of ${grouped(it.compared)} differ. The first is at ${it.first}${where}: here `
    + `${cell(stage.cells(stages)[it.first])}, in the other ${cell(it.theirFirst)}.`;
}

// The steps in which the fault of a stage may be: its own, and those of the stages before that weren't seen to agree.
function suspects(id, stages, verdicts) {
  const stage = STAGES.find((it) => it.id === id), from = typeof stage.from === "function" ? stage.from(stages) : stage.from;
  const earlier = from.filter((it) => verdicts[it].state !== "agrees").flatMap((it) => suspects(it, stages, verdicts));
  return [...new Set([...earlier, ...stage.steps])];
}

// What is said where a stage before the selection has another length, as of another K: what comes after can't agree then.
function anotherSize(verdicts) {
  const stage = STAGES.slice(0, 5).find(({ id }) => verdicts[id].isShort && Math.abs(verdicts[id].theirCount - verdicts[id].count) > 12);
  if (!stage) return "";
  const { theirCount, count } = verdicts[stage.id];
  return `Of the ${stage.name} the other codec has ${grouped(theirCount)}, and here are ${grouped(count)}: it takes another K, or `
    + "not all was pasted. Look at the segmentation (5.1.2) first: the marks of later stages say nothing until K agrees.";
}

function conclusion(stages, verdicts) {
  const size = anotherSize(verdicts);
  if (size) return size;
  const by = (state) => STAGES.filter((it) => verdicts[it.id].state === state);
  const first = by("differs")[0], agreeing = by("agrees").map((it) => it.name);
  const unread = by("unread").map((it) => it.name);
  const rest = unread.length ? ` Not read: ${unread.join(", ")}.` : "";
  if (!first) return agreeing.length ? `All that was given agrees: ${agreeing.join(", ")}.${rest}` : rest.trim();
  const before = STAGES.slice(0, STAGES.indexOf(first)).filter((it) => verdicts[it.id].state === "agrees").map((it) => it.name);
  const lines = [`The first stage that differs is the ${first.name}.`];
  if (before.length) lines.push(`Before it agree: ${before.join(", ")}.`);
  const steps = suspects(first.id, stages, verdicts);
  lines.push(`Look at ${steps.join("; ")}.`);
  if (steps.length > first.steps.length) lines.push("What it has at the stages before, which aren't compared yet, tells more.");
  if (stages.plan.c > 1) lines.push("Code blocks are compared one at a time: choose the others as well.");
  return lines.join(" ") + rest;
}

function showVerdicts(stages, verdicts) {
  for (const stage of STAGES) {
    const it = verdicts[stage.id], note = element(`verdict-${stage.id}`);
    note.textContent = verdictText(stage, stages, it);
    note.className = `verdict ${it.state}`;
    element(`other-${stage.id}`).setAttribute("aria-invalid", String(it.state === "unread" || it.state === "differs"));
  }
  const text = conclusion(stages, verdicts), told = element("compared");
  if (told.textContent !== text) told.textContent = text;
}
