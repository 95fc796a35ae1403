// The pen with which a plan is drawn: boxes, borders, texts, and a part of the canvas outside of which nothing is drawn.

export const FONT = "system-ui,sans-serif";

export function fillBox(ink, colour, x, y, wide, tall) {
  ink.fillStyle = colour;
  ink.fillRect(x, y, wide, tall);
}

export function strokeBox(ink, colour, thick, x, y, wide, tall) {
  ink.strokeStyle = colour;
  ink.lineWidth = thick;
  ink.strokeRect(x, y, wide, tall);
}

// Lines, each from one place to another.
export function strokeLines(ink, colour, ...lines) {
  ink.strokeStyle = colour;
  ink.lineWidth = 1;
  ink.beginPath();
  for (const [x, y, toX, toY] of lines) { ink.moveTo(x, y); ink.lineTo(toX, toY); }
  ink.stroke();
}

// A text whose middle, left or right stands at a place.
export function write(ink, text, x, y, colour, size, align = "center", weight = "") {
  ink.fillStyle = colour;
  ink.font = `${weight} ${size}px ${FONT}`;
  ink.textAlign = align;
  ink.textBaseline = "middle";
  ink.fillText(text, x, y);
}

// A text that goes down from a place.
export function writeDown(ink, text, x, y, colour, size) {
  ink.save();
  ink.translate(x, y);
  ink.rotate(Math.PI / 2);
  write(ink, text, 0, 0.5, colour, size, "left");
  ink.restore();
}

// Draws within a box alone.
export function within(ink, x, y, wide, tall, draw) {
  ink.save();
  ink.beginPath();
  ink.rect(x, y, wide, tall);
  ink.clip();
  draw();
  ink.restore();
}

// The ink of a canvas of this size in the window's points; it is made anew only where the size has changed.
export function sized(canvas, wide, tall, scale = window.devicePixelRatio || 1) {
  const [width, height] = [Math.round(wide * scale), Math.round(tall * scale)];
  if (canvas.width !== width || canvas.height !== height) Object.assign(canvas, {width, height});
  const ink = canvas.getContext("2d", {alpha: false});
  ink.setTransform(scale, 0, 0, scale, 0, 0);
  fillBox(ink, "#fff", 0, 0, wide, tall);
  return ink;
}
