"use strict";
// The address: it has what is asked, so that two people look at the same case.

const LINKED = [...SENT_FIELDS, "block", ...RECEIVED_FIELDS];

// What an address says of a field: without what is only for the eye.
function linkedValue(field) {
  if (field === "block") return String(wantedBlock);
  const text = element(field).value.trim();
  if (field === "payload") return text.replace(/\s+/g, "");
  return field === "rvs" ? text.split(/[\s,]+/).join(",") : text;
}

function permalink() {
  const write = (text) => encodeURIComponent(text).replace(/%2C/g, ",");
  return `#${LINKED.map((it) => `${it}=${write(linkedValue(it))}`).join("&")}`;
}

function keepPermalink() {
  const link = permalink();
  // Some browsers refuse it where it is asked too often; the next one is kept.
  try {
    if (location.hash !== link) history.replaceState(null, "", link);
  } catch {}
}

// Splits an address into pairs of name and value, and says what of it can't be read.
function pairsOf(hash) {
  const pairs = new Map(), faults = [];
  for (const part of hash.replace(/^#/, "").split("&").filter((it) => it)) {
    const [key, ...rest] = part.split("=");
    let value = rest.join("=");
    try {
      value = decodeURIComponent(value);
    } catch {
      faults.push(`“${key}” is damaged.`);
      continue;
    }
    if (!LINKED.includes(key)) faults.push(`“${key.slice(0, 40)}” isn't known here.`);
    else if (!rest.length) faults.push(`“${key}” has no value.`);
    else if (pairs.has(key)) faults.push(`“${key}” comes twice: the first counts.`);
    else pairs.set(key, value);
  }
  return { pairs, faults };
}

// Puts into the fields what an address says. A number out of range goes into its field, which then tells of it; what a
// field can't hold is told here. Returns what is to be told.
function takePermalink(hash) {
  const { pairs, faults } = pairsOf(hash);
  for (const [field, value] of pairs) {
    const box = element(field);
    if (field === "block") {
      if (/^\d{1,4}$/.test(value)) [wantedBlock, isBlockOfAddress] = [Number(value), true];
      else faults.push("“block” isn't the number of a code block.");
    } else if (box.tagName === "SELECT" && ![...box.options].some((it) => it.value === value)) {
      faults.push(`“${field}” can't be ${value.slice(0, 40)}.`);
    } else box.value = field === "payload" ? value.replace(/[0-9a-f]{2}(?=[0-9a-f])/gi, "$& ") : value;
  }
  return faults.length ? `In the address: ${faults.join(" ")}` : "";
}
