"use strict";
// The bits of a code block (5.1.1, 5.1.2): fillers, payload, and the check bits of each kind.

function showBlock({ plan, r, k, bits }, verdicts) {
  const fill = r === 0 ? plan.f : 0, own = plan.c > 1 ? 24 : 0, isLast = r === plan.c - 1;
  const ownAt = k - own, payloadCheckAt = isLast ? ownAt - 24 : k;
  const kind = (i) => (i < fill ? "filler" : i >= ownAt ? "crcb" : i >= payloadCheckAt ? "crca" : "data");
  element("checks").innerHTML = `K = ${k}` + (fill ? `, of which ${fill} are fillers` : "")
    + (isLast ? `; CRC24A of the payload <b class="crca">${checkOf(bits.slice(payloadCheckAt, ownAt))}</b>` : "")
    + (own ? `; CRC24B of the code block <b class="crcb">${checkOf(bits.slice(ownAt))}</b>` : "");
  showListing("bits", listing(k, (i) => bits[i], withMarks(kind, verdicts.c)));
}
