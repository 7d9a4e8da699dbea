"use strict";
// The plan of a transport block (5.1.2), and the choice of the code block that is shown.

// The code block that is wanted. What an address asks for comes before it is known how many there are, and is told where
// there is none; else the choice follows what is shown.
let wantedBlock = 0, isBlockOfAddress = false;

function showPlan({ length, plan, r }) {
  const several = plan.c > 1;
  showTable("plan", [["payload, bytes", length], ["B", 8 * length + 24], ["C", plan.c], ["K<sub>+</sub>", plan.kPlus],
    ["K<sub>−</sub>", several ? plan.kMinus : "–"], ["C<sub>+</sub>", plan.cPlus], ["C<sub>−</sub>", plan.cMinus],
    ["F, fillers", plan.f]]);
  const list = element("block");
  if (list.options.length !== plan.c) {
    list.replaceChildren(...Array.from({ length: plan.c }, (_, i) => new Option(`${i}`)));
  }
  list.value = String(r);
  list.disabled = !several;
  element("block-note").textContent = isBlockOfAddress && wantedBlock >= plan.c
    ? `There is no code block ${grouped(wantedBlock)} of ${plan.c}: the last one is shown.` : "";
  if (!isBlockOfAddress) wantedBlock = r;
  for (const it of document.querySelectorAll(".of-block"))
    it.textContent = several ? `code block ${r} of ${plan.c}` : "";
}
