"use strict";
// The codeword (5.1.5), and the same scrambled (36.211, 6.3.1 and 7.2), in hex.

let shownWords = { word: new Uint8Array(), scrambled: new Uint8Array() };

function showCodeword({ transmission, codeword, plan, r, before, pieces }, verdicts) {
  const { g, rv } = transmission, more = showBytes("word", codeword, verdicts.codeword);
  shownWords.word = codeword;
  element("word-told").textContent = `${many(g, "bit")} in ${many(codeword.length, "byte")}, the highest bit first`
    + (g % 8 ? `; the last ${8 - (g % 8)} are unused` : "")
    + (plan.c > 1 ? `. Bits ${before} to ${before + pieces[rv].bits - 1} are of code block ${r}.` : ".") + more;
}

function showScrambled({ transmission, scrambled, init }, verdicts) {
  const more = showBytes("scrambled", scrambled, verdicts.scrambled);
  shownWords.scrambled = scrambled;
  element("scrambled-told").innerHTML = `The sequence c begins with c<sub>init</sub> = ${init}`
    + ` (0x${init.toString(16).toUpperCase()}); ${many(transmission.g, "bit")}.${more}`;
}
