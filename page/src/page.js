"use strict";
// From what is asked to what is shown.

const EXAMPLES = {
  worked: { payload: "00 01", qm: 2, nl: 1, g: 132, rv: 0, nir: 0 },
  larger: { payload: hexOf(Uint8Array.from({ length: 1000 }, (_, i) => (i * 37 + (i >> 3)) & 255)), qm: 4, nl: 1, g: 16000,
    rv: 0, nir: 0 },
};

// What was shown last, and what is to be done: "work" where something else is asked, "show" where the same is to be
// shown anew. There is one round at a time, and of what is asked meanwhile only the last counts.
const shown = { stages: null, reception: null };
let work = null, due = "", isAtWork = false, waiting = 0;

async function rounds() {
  if (isAtWork) return;
  isAtWork = true;
  element("main").setAttribute("aria-busy", "true");
  while (due) {
    const what = due;
    due = "";
    try {
      await (what === "work" ? askAndShow() : showAgain());
    } catch (error) {
      element("state").textContent = `The work failed: ${error.message}`;
    }
  }
  element("main").setAttribute("aria-busy", "false");
  isAtWork = false;
}

function want(what, soon = 0) {
  due = due === "work" ? due : what;
  clearTimeout(waiting);
  if (soon) waiting = setTimeout(rounds, soon);
  else return rounds();
}

// Asks the module, and adds what it refuses to the refusals.
async function answered(question, asked, refusals) {
  const told = await work.ask(question, asked);
  if (told.refused) refusals.push(refusalOf(told.refused));
  element("state").textContent = told.failed ? `The work failed: ${told.failed}` : "";
  return told.done ?? null;
}

const scramblingOf = ({ rnti, q, slot, cell }) => ({ rnti, q, slot, cell });

async function askStages() {
  const { values, refusals } = readFields(SENT_FIELDS), { payload, qm, nl, g, rv, nir } = values;
  const asked = { payload, transmission: { qm, nl, g, rv }, nIr: nir, block: wantedBlock, scrambling: scramblingOf(values) };
  const stages = refusals.length ? null : await answered("stages", asked, refusals);
  tellRefusals(SENT_FIELDS, refusals);
  element("stages").classList.toggle("stale", !stages);
  element("stale").textContent = stages ? "" : "Something that is asked is refused: what is shown below is the case before.";
  return stages && { stages, sent: values };
}

async function askReception(sent) {
  const { values, refusals } = readFields(RECEIVED_FIELDS);
  if (!sent || refusals.length) return tellReception(null, refusals);
  const { qm, nl, g, nir } = sent, { amp, noise, seed, windows, limit } = values;
  const asked = {
    payload: sent.payload, transmissions: values.rvs.map((rv) => ({ qm, nl, g, rv })), scrambling: scramblingOf(sent),
    channel: { amp, noise, seed }, receiver: { nIr: nir, windows, limit },
  };
  return tellReception(await answered("reception", asked, refusals), refusals);
}

function tellReception(reception, refusals) {
  tellRefusals(RECEIVED_FIELDS, refusals);
  element("received").classList.toggle("stale", !reception);
  if (!reception) element("outcome").textContent = refusals.find((it) => !RECEIVED_FIELDS.includes(it.field))?.message ?? "";
  return reception;
}

async function askAndShow() {
  keepPermalink();
  const told = await askStages();
  if (due === "work") return;
  if (told) {
    shown.stages = told.stages;
    await showStages(told.stages);
    keepPermalink();
  }
  shown.reception = await askReception(told?.sent);
  if (shown.reception) showReception(shown.reception);
}

// Shows a stage at a time, and lets the browser answer between them.
async function showStages(stages) {
  const verdicts = verdictsOf(stages);
  const shows = [showPlan, showBlock, showStreams, showBuffer, showSelected, showCodeword, showScrambled, showPoints];
  for (const show of shows) {
    show(stages, verdicts);
    await breath();
  }
  showVerdicts(stages, verdicts);
}

async function showAgain() {
  if (shown.stages) await showStages(shown.stages);
  if (shown.reception) showReception(shown.reception);
}

function takeAddress() {
  element("link-note").textContent = takePermalink(location.hash);
}

function listen() {
  document.addEventListener("input", ({ target }) => {
    if (target.id === "block") wantedBlock = Number(target.value);
    isBlockOfAddress = false;
    want(target.id.startsWith("other-") ? "show" : "work", 150);
  });
  document.addEventListener("submit", (event) => event.preventDefault());
  for (const [id, values] of Object.entries(EXAMPLES)) {
    element(id).onclick = () => {
      for (const [field, value] of Object.entries(values)) element(field).value = value;
      [wantedBlock, isBlockOfAddress] = [0, false];
      want("work");
    };
  }
  element("copy-word").onclick = () => copyText(hexOf(shownWords.word), "copied-word");
  element("copy-scrambled").onclick = () => copyText(hexOf(shownWords.scrambled), "copied-scrambled");
  element("copy-link").onclick = () => copyText(new URL(permalink(), location.href).href, "copied-link");
  for (const it of document.querySelectorAll("[data-to]")) it.onclick = () => element(it.dataset.to).focus();
  window.addEventListener("hashchange", () => {
    takeAddress();
    want("work");
  });
  window.addEventListener("resize", () => want("show", 150));
  matchMedia("(prefers-color-scheme: dark)").addEventListener("change", () => want("show", 150));
}

async function begin() {
  makeOtherFields();
  takeAddress();
  try {
    work = await openWork(Uint8Array.from(atob(GOMZELAT_WASM), (it) => it.charCodeAt(0)));
  } catch (error) {
    element("state").textContent = "This browser can't run the module, which needs WebAssembly with a 64-bit memory "
      + `(Chromium from 133, Firefox from 134): ${error.message}`;
    return;
  }
  element("state").textContent = "";
  listen();
  want("work");
}

begin();
