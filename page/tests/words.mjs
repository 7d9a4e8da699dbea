// How tests write bytes.
export const hexOfBytes = (bytes) => Array.from(bytes, (it) => it.toString(16).padStart(2, "0").toUpperCase()).join(" ");
