"use strict";
// Who does the work: a worker, so that the page answers its user meanwhile. A page from the disk can't load a worker's
// script, so it is made of the texts of its functions.

const WORKER_FUNCTIONS = [callsOf, stagesOf, countsOf, noiseOf, transmitted, receptionOf, answerTo, moduleOf, serve];

// Sends a worker a message, and waits for its answer. There is one message at a time.
const exchange = (worker, message) => new Promise((give, fail) => {
  worker.onmessage = ({ data }) => give(data);
  worker.onerror = (event) => fail(new Error(event.message ?? "The worker failed."));
  worker.postMessage(message);
});

async function workerWith(bytes) {
  const text = `"use strict";\n${WORKER_FUNCTIONS.join("\n")}\nserve();\n`;
  const worker = new Worker(URL.createObjectURL(new Blob([text], { type: "text/javascript" })));
  const told = await exchange(worker, { bytes });
  if (!told.ready) throw new Error(told.failed);
  return worker;
}

// Returns a function that takes a question and what is asked, and promises the answer. Where no worker can be made, the
// page does the work itself, between two answers to its user.
async function openWork(bytes) {
  const calls = await moduleOf(bytes);
  try {
    const worker = await workerWith(bytes);
    return { inWorker: true, ask: (question, asked) => exchange(worker, { question, asked }) };
  } catch {
    return { inWorker: false, ask: (question, asked) => breath().then(() => answerTo(calls, question, asked)) };
  }
}
