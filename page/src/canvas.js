"use strict";
// Drawing: a canvas in the screen's own pixels, and the colours of the style sheet.

function colour(name) {
  const probe = document.createElement("span");
  probe.style.color = `var(--${name})`;
  document.body.append(probe);
  const found = getComputedStyle(probe).color;
  probe.remove();
  return found;
}

// Returns what draws on a canvas, and its width and height, which is that of its attribute or, of a square, its width.
function cleared(id) {
  const it = element(id), ratio = window.devicePixelRatio || 1;
  it.style.width = "";
  it.dataset.height ??= it.getAttribute("height");
  const width = it.clientWidth, height = it.classList.contains("square") ? width : Number(it.dataset.height);
  it.width = width * ratio;
  it.height = height * ratio;
  it.style.height = `${height}px`;
  const draw = it.getContext("2d");
  draw.scale(ratio, ratio);
  return [draw, width, height];
}

// Draws the axes of a constellation, and returns where a point stands; `reach` is the greatest coordinate that has room.
function axes(id, reach) {
  const [draw, width, height] = cleared(id);
  const x = (i) => width / 2 + (i / reach) * (width / 2), y = (q) => height / 2 - (q / reach) * (height / 2);
  draw.fillStyle = colour("line");
  draw.fillRect(0, height / 2, width, 1);
  draw.fillRect(width / 2, 0, 1, height);
  return { draw, x, y };
}
