"use strict";
// The bits of another codec: how they are read, and what differs.

const OTHER_NULL = 2;
const BITS_OF = Object.fromEntries(Array.from({ length: 16 }, (_, n) => [n.toString(16), [n >> 3, (n >> 2) & 1, (n >> 1) & 1, n & 1]]));

// Reads a text as cells: bits, with NULL as -1, 2, N, x, - or a dot; or hex, four bits a digit. `wanted` is how many cells
// are expected. Digits that are all 0 or 1 are hex only after 0x, or where just so many hex digits are needed.
function cellsIn(text, wanted) {
  const isNamedHex = /^\s*0x/i.test(text);
  // A dash before a 1 is -1 only where it stands apart: elsewhere it is a NULL, and the 1 the next bit.
  const bare = text.replace(/0x/gi, "").replace(/(^|[\s,;[({])-1(?=$|[\s,;\])}])/g, "$1N").replace(/<?null>?|nan/gi, "N")
    .replace(/[\s,;:_[\](){}'"]/g, "");
  const isHexSize = bare.length === 2 * Math.ceil(wanted / 8) || bare.length === Math.ceil(wanted / 4);
  const isBits = !isNamedHex && /^[01Nnx?·.\-2]+$/.test(bare) && !(isHexSize && /^[012]+$/.test(bare));
  if (isBits) return Uint8Array.from(bare, (it) => (it === "0" ? 0 : it === "1" ? 1 : OTHER_NULL));
  const odd = bare.search(/[^0-9a-f]/i);
  if (odd >= 0) throw new Refused("other", `“${bare[odd]}” is neither a bit nor a hex digit (character ${odd + 1}).`);
  const cells = Uint8Array.from(Array.from(bare.toLowerCase(), (it) => BITS_OF[it]).flat());
  // The last byte or digit may have unused bits.
  const unused = cells.length - wanted;
  return unused > 0 && unused < 8 ? cells.subarray(0, wanted) : cells;
}

// The places of ours that are compared: all; those that aren't NULL where the other has just so many bits (`dense`); and
// a NULL is passed over where the other has no mark for it.
function placesOf(ours, theirs) {
  const held = Uint32Array.from(ours.keys()).filter((i) => ours[i] !== NULL_CELL), hasNull = theirs.includes(OTHER_NULL);
  if (!hasNull && theirs.length === held.length) return { places: held, dense: held.length < ours.length };
  const places = hasNull ? Uint32Array.from(ours.keys()) : held;
  return { places: places.filter((i) => i < theirs.length), dense: false };
}

// Compares our cells with a text: { state: "none" | "unread" | "agrees" | "differs", .. }. Fillers, of which the module
// writes zeros, may be NULL in the other's.
function comparison(ours, text, fillers = 0) {
  if (!text.trim()) return { state: "none" };
  let theirs;
  try {
    theirs = cellsIn(text, ours.length);
  } catch (error) {
    if (!(error instanceof Refused)) throw error;
    return { state: "unread", text: error.message };
  }
  const { places, dense } = placesOf(ours, theirs), flags = new Uint8Array(ours.length);
  let first = -1, theirFirst = -1, differing = 0;
  places.forEach((i, n) => {
    const their = theirs[dense ? n : i];
    if (ours[i] === their || (i < fillers && their === OTHER_NULL)) return;
    if (first < 0) [first, theirFirst] = [i, their];
    flags[i] = 1;
    differing++;
  });
  const isShort = !dense && theirs.length !== ours.length;
  return { state: differing || isShort ? "differs" : "agrees", first, theirFirst, differing, flags, isShort,
    compared: places.length, count: ours.length, theirCount: theirs.length };
}
