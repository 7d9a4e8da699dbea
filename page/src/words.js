"use strict";
// How bytes, bits and numbers are written, and where elements are.

const MOST_BYTES = 18722, MOST_BITS = 1000000, NULL_SPOT = 0xffffffff, NULL_CELL = 2;

const element = (id) => document.getElementById(id);
const hexOf = (bytes) => Array.from(bytes, (it) => it.toString(16).padStart(2, "0").toUpperCase()).join(" ");
const bitAt = (bytes, i) => (bytes[i >> 3] >> (7 - (i & 7))) & 1;
const grouped = (n) => n.toLocaleString("en");
const many = (n, what) => `${grouped(n)} ${what}${n === 1 ? "" : "s"}`;

// Check bits as a number in hex, from a byte for each bit.
const checkOf = (bits) => "0x" + parseInt(Array.from(bits).join(""), 2).toString(16).padStart(6, "0").toUpperCase();

// Copies a text, and tells the outcome in an element beside the button.
async function copyText(text, told) {
  try {
    await navigator.clipboard.writeText(text);
    element(told).textContent = "Copied.";
  } catch {
    element(told).textContent = "The browser doesn't allow it here: select the text instead.";
  }
}

// Lets the browser answer its user between two pieces of work.
const breath = () => new Promise((go) => setTimeout(go, 0));
