// The contrast of each colour of text with what it stands on, as an expression for the page.
export const CONTRASTS = `(() => {
  const part = (n) => (n /= 255) <= 0.03928 ? n / 12.92 : ((n + 0.055) / 1.055) ** 2.4;
  const light = (name) => colour(name).match(/[\\d.]+/g).slice(0, 3).map(Number).map(part)
    .reduce((sum, it, i) => sum + it * [0.2126, 0.7152, 0.0722][i], 0);
  const of = (a, b) => { const [low, high] = [light(a), light(b)].sort((x, y) => x - y); return (high + 0.05) / (low + 0.05); };
  const on = ["ink", "soft", "accent", "filler", "null", "crca", "crcb", "tail", "one", "wrong", "good"];
  return [...on.flatMap((it) => [[it, of(it, "ground")], [it + " raised", of(it, "raised")]]),
    ["ink on sent", of("ink", "sent")], ["ink on again", of("ink", "again")], ["on differing", of("ink", "wrong-ground")]];
})()`;
